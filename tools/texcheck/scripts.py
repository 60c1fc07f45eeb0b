"""Tests all scripts: `--help` prints a usage and changes nothing, a misspelt option is refused and changes nothing, and
each check that is given a path that does not exist fails. `./test --proved` fails if a proof is missing or out of date.

It runs them in a copy of the repository, and compares the bytes and the times of all files before and after.
"""
import os
import shutil
import sys
import tempfile
from pathlib import Path

from texcheck.common import TOP, said
from texcheck.unproved import LIBRARY, PROGRAMS

HELP = "each script's --help, a misspelt option, and paths that do not exist"
LEFT_OUT = shutil.ignore_patterns(".git", "out", "__pycache__")
# the scripts that do not end in .py or .sh
OTHERS = ("build", "install", "test", "texcache", "texmake", ".ci/run", "tools/check", "tools/setup")
NOWHERE = "/nonexistent/x"
TOO_LONG = 124
TOOLS = {"tools/explain.py": [NOWHERE, NOWHERE], "tools/folder_info.py": [NOWHERE],
         "tools/hit_curve.py": [NOWHERE, NOWHERE], "tools/prepare.py": [NOWHERE, NOWHERE],
         "tools/texprepare/compare_texels.py": [NOWHERE, NOWHERE, "0"]}


def files(top):
    return [Path(folder) / name for folder, folders, names in os.walk(top) for name in names
            if "__pycache__" not in folder]


def times(top):
    return {it: (it.stat().st_mtime_ns, it.stat().st_size) for it in files(top)}


def scripts(top):
    """All scripts, each as the command that calls it."""
    found = [top / it for it in OTHERS]
    found += [it for it in files(top)
              if it.suffix == ".sh" or it.suffix == ".py" and "\nif __name__ == " in it.read_text(encoding="utf-8")]
    return [[sys.executable, it] if it.suffix == ".py" else [it] for it in sorted(found)]


def with_paths(parsers):
    """The subcommands with each option that takes a path."""
    for name, parser in parsers.items():
        for action in parser._actions:
            if action.type is Path:
                yield [name, action.option_strings[0], NOWHERE]


def name_of(words, top):
    return " ".join(os.path.relpath(it, top) if str(it).startswith(str(top)) else str(it) for it in words
                    if it != sys.executable)


class Runs:
    """Runs scripts in a copy of the repository, and counts wrong statuses, tracebacks and changed files."""

    def __init__(self, top):
        self.top, self.before, self.count, self.wrong = top, times(top), 0, 0
        # no script may come as far as the toolchain
        (top.parent / "rt").write_text("#!/bin/sh\nexit 9\n")
        (top.parent / "rt").chmod(0o755)
        path = os.pathsep.join([str(top.parent), os.environ["PATH"]])
        self.environment = {**os.environ, "PATH": path, "PYTHONDONTWRITEBYTECODE": "1"}

    def run(self, words, is_right, wanted, says=""):
        status, text = said(words, cwd=self.top, seconds=60, env=self.environment)
        self.count += 1
        after = times(self.top)
        changed = [str(it.relative_to(self.top)) for it in after if self.before.get(it) != after[it]]
        changed += [str(it.relative_to(self.top)) for it in self.before if it not in after]
        if changed or "Traceback" in text or not text or says not in text or not is_right(status):
            self.wrong += 1
            print(f"{name_of(words, self.top)}: status {status}, wanted {wanted}; changed files: {changed[:5]}\n"
                  f"{text[-500:]}")
        self.before = after


def check_proved(runs):
    """Makes files that look like what CI leaves, and removes each in turn, or makes it older than its sources."""
    crates = runs.top / "crates"
    left = {it: crates / it / "out" / it for it in PROGRAMS} | {LIBRARY: crates / LIBRARY / "out"}
    for it in left.values():
        it.parent.mkdir(exist_ok=True)
        it.touch() if it.name != "out" else it.mkdir()
    for name, place in left.items():
        found = place.stat().st_mtime_ns
        for change in (lambda: os.utime(place, (1, 1)), lambda: place.rename(runs.top.parent / name)):
            change()
            runs.before = times(runs.top)
            runs.run([runs.top / "test", "--proved"], lambda it: it == 1, f"status 1 and a line about {name} alone",
                     f"./build {name}\n0 passed, 1 failed")
        (runs.top.parent / name).rename(place)
        os.utime(place, ns=(found, found))



def run(_args):
    from texcheck.entry import parsers
    with tempfile.TemporaryDirectory() as room:
        top = Path(room) / "copy"
        shutil.copytree(TOP, top, ignore=LEFT_OUT, symlinks=True)
        bytes_before = {it: it.read_bytes() for it in files(top)}
        found, runs = scripts(top), Runs(top)
        subcommands = [[top / "tools" / "check", it] for it in parsers()[1]]
        for words in found + subcommands:
            runs.run([*words, "--help"], lambda it: it == 0, "status 0")
            runs.run([*words, "--nosuchoption"], lambda it: it not in (0, TOO_LONG), "a failure")
        for words in with_paths(parsers()[1]):
            runs.run([top / "tools" / "check", *words], lambda it: it == 1, "status 1")
        for name, words in TOOLS.items():
            runs.run([sys.executable, top / name, *words], lambda it: it not in (0, TOO_LONG), "a failure")
        check_proved(runs)
        if {it: it.read_bytes() for it in files(top) if "out" not in it.parts} != bytes_before:
            runs.wrong += 1
            print("a script changed the bytes of a file and kept its time")
    print(f"scripts: {runs.wrong} of {runs.count} calls of {len(found)} scripts and {len(subcommands)} subcommands are "
          "wrong")
    return 1 if runs.wrong or len(found) < 15 else 0
