"""Runs tools/prepare.py for its tests, and counts the failures."""
import hashlib
import re
import subprocess
import sys

from texcheck import textures
from texcheck.common import TOP, debian_python

SCRIPT = TOP / "tools" / "prepare.py"
SUMMARY = re.compile(r"(\d+) images?: (\d+) made, (\d+) up to date, (\d+) failed")
MARK = b'\n{"texcache prepare": 1'


class Case:
    """Counts comparisons and failures."""

    def __init__(self, program, room):
        self.program, self.room, self.count, self.wrong = program, room, 0, 0

    def expect(self, is_so, what, found=""):
        self.count += 1
        if not is_so:
            self.wrong += 1
            print(f"prepare: {what}{f': {found}' if found else ''}"[:1500], file=sys.stderr, flush=True)

    def run(self, *words, program=None, **more):
        """The status of prepare.py, and what it says."""
        command = [debian_python(), SCRIPT, *words, "--program", program or self.program]
        done = subprocess.run([str(it) for it in command], stdin=subprocess.DEVNULL, stdout=subprocess.PIPE,
                              stderr=subprocess.STDOUT, check=False, **more)
        return done.returncode, done.stdout.decode(errors="replace")

    def expect_run(self, what, status, text, *words, **more):
        """A run that ends with this status and says this text."""
        found = self.run(*words, **more)
        self.expect(found[0] == status and text in found[1] and "Traceback" not in found[1],
                    f"{what}: wanted are status {status} and {text!r}", found)
        return found[1]

    def folder(self, name):
        path = self.room / name
        path.mkdir(parents=True)
        return path


def tree(folder):
    """The files below a folder with their bytes and times."""
    return {str(it.relative_to(folder)): (it.read_bytes(), it.stat().st_mtime_ns)
            for it in sorted(folder.rglob("*")) if it.is_file()}


def counts(text):
    found = SUMMARY.search(text)
    return tuple(map(int, found.groups())) if found else ()


def sums(folder):
    """The files below a folder with checksums, times, and whether each is whole."""
    return {it.name: (hashlib.sha256(data := it.read_bytes()).digest(), it.stat().st_mtime_ns, whole(data))
            for it in sorted(folder.rglob("*")) if it.is_file()}


def whole(data):
    """Whether a texture ends with the record that prepare.py adds last."""
    return MARK in data[-1000:] and data.endswith(b"}\n")


def check_accepted(case, source, dest, names):
    """A texture that was made without a converter is, byte for byte, what FORMAT.md defines, and then a record."""
    for name in names:
        wanted, found = textures.wanted((source / name).read_bytes(), 64)[1], (dest / name).read_bytes()
        case.expect(found.startswith(wanted + MARK) and whole(found), f"{name}: the bytes of its texture are wrong")
