"""All tests that need no prover: what ./test does."""
import argparse
import os
import re
import subprocess
import sys
import time
from concurrent.futures import ThreadPoolExecutor

from texcheck.archive import archive_of
from texcheck.common import TOP, Missing, said
from texcheck.sources import is_proved_by_ci, proved
from texcheck.unproved import LIBRARY, PROGRAMS, build, try_tests

ABOUT = """Runs all tests that need no prover: the tests of the crates, the programs' stored runs, lists and files, the
library for C, the tools, the documents and the drawings. It proves nothing: bash .ci/run is the full check.

The programs, the library and the tests are unproved builds. With --checked programs and tests are built with the
address sanitizer, which finds bad accesses too, and takes much longer. With --proved the programs are those that CI or
./build left, and what CI runs itself is left out; if one of them or the proof of the library is missing, nothing is
run. CI proves the library and does not link it, so it may be an unproved build of the proved sources.

It takes about ten minutes on two processors. The last line counts what passed and what failed; above it is what was
skipped, and why.
"""
# the longest first
TESTS = ["request_tests", "format_tests", "cache_tests", "sharing_tests"]


def command(*words):
    """A step that runs a command."""
    def step():
        status, text = said(words, cwd=TOP)
        return int(status == 0), int(status != 0), text
    return step


def tests_of(crate, is_checked):
    """A step that runs the tests of a crate."""
    def step():
        status, text = try_tests(crate, is_checked)
        found = re.search(r"(\d+) passed; (\d+) failed", text)
        passed, failed = map(int, found.groups()) if found else (0, 1)
        return passed, failed or int(status != 0), text
    return step


def stored_run(program, crate):
    """A step that runs a program on its stored run: the files args, stdin, stdout and status of its crate."""
    def step():
        folder = TOP / "crates" / crate
        read = lambda name, usual: (folder / name).read_bytes() if (folder / name).is_file() else usual
        ran = subprocess.run([program, *read("args", b"").decode().splitlines()], input=read("stdin", b""),
                             cwd=folder / "data" if (folder / "data").is_dir() else folder, stdout=subprocess.PIPE,
                             check=False)
        wanted = (read("stdout", b""), int(read("status", b"0")))
        is_so = (ran.stdout, ran.returncode) == wanted
        return int(is_so), int(not is_so), f"status {ran.returncode}, wanted {wanted[1]}, {len(ran.stdout)} bytes"
    return step


def steps(args, programs, library):
    """The steps, each with its name, the longest first."""
    texcache, texsample, texmake = (programs[it] for it in PROGRAMS)
    skip = [] if args.proved and not args.skip_missing else ["--skip-missing"]
    readers = ["--readers"] if args.proved and not args.skip_missing else []
    if not args.proved:
        yield from ((f"tests of {it}", tests_of(it, args.checked)) for it in TESTS)
        yield from ((f"stored run of {it}", stored_run(program, it)) for it, program in programs.items())
    for name, *words in [
        ("textures", "--program", texmake, "--texcache", texcache, *readers),
        ("embedding", "--program", texcache, "--library", library, *skip),
        ("fine", "--library", library, *(["--full"] if args.proved else []), *skip),
        ("python", "--library", library, *skip),
        ("bridge", "--library", library, *skip),
        ("viewer", "--library", library, *skip),
        ("baker", "--program", texmake, "--library", library, *skip),
        ("renderer", "--library", library, *skip),
        ("package", *skip),
        ("interface", "--library", library, *skip),
        ("fault-words",),
        ("beside-oiio", "--library", library, *skip),
        ("lists", "--program", texcache, "--texsample", texsample),
        ("failed-allocations", "--program", texcache, *skip),
        ("scripts",), ("stored-run",),
        ("random-files", "--program", texcache),
        ("replaced-files", "--program", texcache),
        ("prepare", "--program", texmake, "--texcache", texcache, *(["--full"] if args.proved else []), *skip),
        ("user-tools", "--program", texcache),
        ("examples", "--program", texcache),
        ("commands",),
        ("demo", "--program", texcache),
        ("pictures", "--program", texcache, *skip),
        ("curve", "--program", texcache),
    ]:
        yield f"tools/check {name}", command(TOP / "tools" / "check", name, *words)
    yield "demo/try_hostile.sh", command(TOP / "demo" / "try_hostile.sh", texcache)
    for script in ("tools/check_definitions.py", "tools/check_documents.py", "docs/pictures/draw.py"):
        yield script, command(sys.executable, TOP / script)


def timed(named):
    name, step = named
    began = time.monotonic()
    passed, failed, text = step()
    print(f"{'failed' if failed else 'passed'}: {name}, {time.monotonic() - began:.0f} s", flush=True)
    if failed:
        print(text[-4000:], flush=True)
    return passed, failed, [f"{it} ({name})" for it in text.splitlines() if it.startswith("skipped: ")]


def processors():
    return len(os.sched_getaffinity(0))


def what_is_built(args):
    """The programs, and the library."""
    if not args.proved:
        with ThreadPoolExecutor(processors()) as pool:
            *programs, library = pool.map(lambda it: build(it, args.checked and it != LIBRARY), (*PROGRAMS, LIBRARY))
        return dict(zip(PROGRAMS, programs)), archive_of(library)
    programs = {it: proved(it) for it in PROGRAMS}
    missing = [it for it, place in programs.items() if not place]
    missing += [] if proved(LIBRARY) or is_proved_by_ci(LIBRARY) else [LIBRARY]
    if missing:
        raise Missing("".join(f"\nfailed: {it} is not proved, or a source has changed: bash .ci/run, or ./build {it}"
                              for it in missing), len(missing))
    if not proved(LIBRARY):
        print(f"test: {LIBRARY} is an unproved build of the proved sources; ./build {LIBRARY} makes the proved one",
              flush=True)
    return programs, archive_of()


def main():
    parser = argparse.ArgumentParser(prog="./test", description=ABOUT, allow_abbrev=False,
                                     formatter_class=argparse.RawDescriptionHelpFormatter)
    which = parser.add_mutually_exclusive_group()
    which.add_argument("--proved", action="store_true", help="the proved programs and library, behind CI")
    which.add_argument("--checked", action="store_true", help="programs with the address sanitizer; slow")
    parser.add_argument("--skip-missing", action="store_true",
                        help="with --proved, skip what needs a package that tools/setup would install")
    args = parser.parse_args()
    try:
        programs, library = what_is_built(args)
    except Missing as error:
        text, count = (*error.args, 1)[:2]
        print(f"test: {text}\n0 passed, {count} failed")
        return 1
    with ThreadPoolExecutor(processors()) as pool:
        results = list(pool.map(timed, steps(args, programs, library)))
    passed, failed, skipped = zip(*results)
    print(*(line for lines in skipped for line in lines), sep="\n", end="\n" if any(skipped) else "")
    print(f"{sum(passed)} passed, {sum(failed)} failed")
    return 1 if sum(failed) else 0
