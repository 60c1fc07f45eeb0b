"""Tests the Python package: its wheel, its values, bad use, threads, and that other threads run during its calls.

A wheel is built offline from what ./build left, installed by pip into an empty folder, and used from there alone, with
numpy and without. Values are compared with a plain model (fine_model.py), in arrays of all types and layouts. Each call is
misused: files that do not exist, numbers out of range, arrays of a wrong type or shape, misspelt options, a closed cache.
Without a library the wheel is not built and the package is not imported, and both say what to do.
"""
import os
import shutil
import sys
import tempfile
from pathlib import Path

from texcheck.archive import archive_of
from texcheck.common import TOP, Skips, debian_python, lacking_module, said
from texcheck.tree import shared

HELP = "the Python package: wheel, values, bad use, threads"
HERE = TOP / "tools" / "python"
PACKAGE = TOP / "python"
NAME = "libtexcache.so"
MIDDLE = "42919 36494 34759"
WHEEL = ["-m", "pip", "wheel", "-q", "--no-deps", "--no-build-isolation"]


def copied(to):
    """A copy of python/ alone, as in no repository, and without a library."""
    shutil.copytree(PACKAGE, to, ignore=shutil.ignore_patterns("__pycache__", NAME))
    return to


class Tests:
    """The tests, in a temporary folder, and how many passed and failed."""

    def __init__(self, library, room, skips):
        self.room, self.skips, self.passed, self.failed = room, skips, 0, 0
        self.library = room / NAME
        shared(library, self.library)
        self.env = {it: value for it, value in os.environ.items() if not it.startswith(("PYTHON", "TEXCACHE"))}
        self.env |= {"HOME": str(room), "PIP_ROOT_USER_ACTION": "ignore", "PIP_DISABLE_PIP_VERSION_CHECK": "1",
                     "PIP_NO_INDEX": "1", "PYTHONDONTWRITEBYTECODE": "1"}

    def say(self, is_so, what, more=""):
        self.passed += bool(is_so)
        self.failed += not is_so
        print(f"{'passed' if is_so else 'failed'}: {what}{'' if is_so else ': ' + str(more)[-3000:]}", flush=True)
        return is_so

    def does(self, what, words, says, status=0, cwd=None, **more):
        """Whether a command ends with a status, and says this."""
        found, text = said(words, seconds=600, cwd=cwd or self.room, env={**self.env, **more})
        return self.say(found == status and says in text, what, f"status {found}, wanted {status}: {text}")

    def wheel(self):
        """Builds the wheel and installs it. Returns the folder of the package, which is all that the tests see."""
        python, wheels, to = debian_python(), self.room / "wheels", self.room / "installed"
        before = sorted(PACKAGE.rglob("*"))
        self.does("building the wheel", [python, *WHEEL, "-w", wheels, "."], "", cwd=PACKAGE, TEXCACHE_LIBRARY=str(self.library))
        self.say(sorted(PACKAGE.rglob("*")) == before, "nothing is left beside the sources")
        made = list(wheels.glob("texcache-*-py3-none-linux_*.whl"))
        if not self.say(len(made) == 1, "the wheel is for any Python 3 on this platform", list(wheels.glob("*"))):
            return None
        words = ["-m", "pip", "install", "-q", "--no-index", "--target", to, made[0]]
        if not self.does("installing the wheel", [python, *words], ""):
            return None
        names = {it.name for it in (to / "texcache").iterdir()}
        self.say({NAME, "py.typed", "__init__.py"} <= names, "library and type hints are in the wheel", names)
        pages = {it.name for it in (to / "texcache" / "viewer" / "static").iterdir()}
        self.say(pages == {it.name for it in (PACKAGE / "texcache" / "viewer" / "static").iterdir()}, "the viewer's pages are in it", pages)
        self.does("the package alone", [python, TOP / "examples/lookup/lookup.py", TOP / "demo", "bricks.tif"], MIDDLE,
                  PYTHONPATH=str(to))
        self.does("it is the installed one", [python, "-c", "import texcache; print(texcache.__file__)"], str(to),
                  PYTHONPATH=str(to))
        return to

    def of_the_build(self):
        """The wheel of what ./build left, without a word of where the library is."""
        archive_of()
        wheels = self.room / "of-build"
        self.does("a wheel of what ./build left", [debian_python(), *WHEEL, "-w", wheels, "."], "", cwd=PACKAGE)
        self.say(len(list(wheels.glob("*.whl"))) == 1, "it is there", list(wheels.glob("*")))

    def without_library(self):
        alone = copied(self.room / "alone")
        python = debian_python()
        self.does("a wheel without a library says what to do", [python, *WHEEL, "-w", self.room / "none", "."],
                  "./build tex_c", 1, cwd=alone)
        self.does("a wheel of a library that is not there", [python, *WHEEL, "-w", self.room / "none", "."],
                  "/nosuch/lib.so", 1, cwd=alone, TEXCACHE_LIBRARY="/nosuch/lib.so")
        asks = [python, "-c", "import texcache"]
        for what, given, text in (("no library", {}, "./install PREFIX"),
                                  ("a library that is not there", {"TEXCACHE_LIBRARY": "/nosuch/lib.so"}, "/nosuch/lib.so"),
                                  ("no library but a text", {"TEXCACHE_LIBRARY": str(TOP / "VERSION")}, "TEXCACHE_LIBRARY"),
                                  ("another library", {"TEXCACHE_LIBRARY": self.other()}, "of version")):
            self.does(f"importing it with {what}", asks, text, 1, PYTHONPATH=str(alone), **given)
            self.does(f"importing it with {what} is an ImportError", asks, "ImportError: ", 1, PYTHONPATH=str(alone), **given)

    def other(self):
        """A shared library that has nothing of ours."""
        source, made = self.room / "other.c", self.room / "libother.so"
        source.write_text("int other;\n", encoding="ascii")
        said(["cc", "-shared", "-o", made, source])
        return str(made)

    def scripts(self, package):
        """The tests in Python, with numpy and without."""
        slow = self.room / "slow_reads.so"
        self.does("building slow_reads.so", ["cc", "-shared", "-fPIC", "-O2", "-Wall", "-Wextra", "-Werror", "-o", slow,
                                             HERE / "slow_reads.c"], "")
        pythons = {"with numpy": [debian_python()], "without numpy": [sys.executable, "-S"]}
        if self.skips.lacks(lacking_module("numpy"), "Python with numpy"):
            del pythons["with numpy"]
        for what, python in pythons.items():
            own = {"PYTHONPATH": str(package)}
            self.does(f"values {what}", [*python, HERE / "values.py"], " 0 wrong", **own)
            self.does(f"bad use {what}", [*python, HERE / "bad_use.py", TOP / "demo"], " 0 wrong", **own)
            self.does(f"other threads run {what}", [*python, HERE / "reads.py", TOP / "demo"], " 0 keep the lock", **own,
                      LD_PRELOAD=str(slow), SLOW_READS="60")


def add_arguments(parser):
    parser.add_argument("--library", type=Path, metavar="FILE",
                        help="the library; else the proved one if it is up to date, or an unproved build")
    Skips.add_argument(parser)


def run(args):
    skips = Skips(args)
    lacking = None if shutil.which("cc") else "a C compiler"
    if skips.lacks(lacking or lacking_module("pip", "setuptools", "wheel"), "python"):
        return 1 if skips.failed else 0
    with tempfile.TemporaryDirectory() as room:
        tests = Tests(archive_of(args.library), Path(room), skips)
        package = tests.wheel()
        if package:
            tests.scripts(package)
        tests.of_the_build()
        tests.without_library()
    print(f"python: {tests.passed} passed, {tests.failed} failed")
    return 1 if tests.failed or skips.failed else 0
