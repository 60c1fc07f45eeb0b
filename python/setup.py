"""Makes a wheel of the package with libtexcache.so inside, without the network and without a prover.

The library is the one that TEXCACHE_LIBRARY names, the one in texcache/, or one linked from what ./build left: the
proved archive if it is up to date, or else an unproved one. The wheel's version ends in +unproved if the library's does.
Nothing is written beside the sources.
"""
import ctypes
import os
import re
import shutil
import sys
import tempfile
from pathlib import Path

from setuptools import Distribution, setup
from setuptools.command.build_py import build_py
from wheel.bdist_wheel import bdist_wheel

HERE = Path(__file__).resolve().parent
TOOLS = HERE.parent / "tools"
NAME = "libtexcache.so"
NOT_BUILT = f"""

texcache: the library was not built, so no wheel can be made.
- In the repository, run ./build tex_c (proves it, in about an hour) or ./build --unproved tex_c (a minute), and then
  make the wheel again.
- With a library that lies elsewhere, set TEXCACHE_LIBRARY to the path of {NAME}.
"""


def linked(room):
    """A shared library of what ./build left in the repository; None if nothing is there."""
    if not (TOOLS / "texcheck" / "unproved.py").is_file():
        return None
    sys.path.insert(0, str(TOOLS))
    from texcheck.archive import archive_of
    from texcheck.common import Missing
    from texcheck.sources import proved, sum_of
    from texcheck.tree import shared
    from texcheck.unproved import LIBRARY, OUT
    unproved = OUT / "fast" / f"lib{LIBRARY}.a"
    stamp = unproved.with_suffix(".sum")
    is_current = unproved.is_file() and stamp.is_file() and stamp.read_text(encoding="ascii") == sum_of(LIBRARY)
    archive = proved(LIBRARY) or (unproved if is_current else None)
    try:
        if archive:
            shared(archive_of(archive), room / NAME)
    except Missing as error:
        raise SystemExit(f"texcache: the library could not be linked: {error}") from None
    return room / NAME if archive else None


def library(room):
    """The library that goes into the wheel."""
    given = os.environ.get("TEXCACHE_LIBRARY")
    places = [Path(given)] if given else [HERE / "texcache" / NAME, HERE / NAME]
    found = next((it for it in places if it.is_file()), None) or (None if given else linked(room))
    if not found:
        raise SystemExit(NOT_BUILT + (f"- There is no {given}.\n" if given else ""))
    return found


def version_of(place):
    """The version of the library, which has to be the package's, in Python's form: 1.0.0rc2+unproved."""
    package = re.search(r'VERSION = "(.*)"', (HERE / "texcache" / "_version.py").read_text(encoding="utf-8"))[1]
    found = ctypes.CDLL(str(place))
    found.texcache_version.restype = ctypes.c_char_p
    text = found.texcache_version().decode()
    if text.partition("+")[0] != package:
        raise SystemExit(f"texcache: the package is of version {package}, and the library {place} of version {text}")
    return text.replace("-", "")


class BuildWithLibrary(build_py):
    """Puts the library beside the modules."""

    def run(self):
        super().run()
        target = Path(self.build_lib) / "texcache" / NAME
        target.parent.mkdir(parents=True, exist_ok=True)
        target.unlink(missing_ok=True)
        shutil.copyfile(LIBRARY, target)
        target.chmod(0o755)


class WithBinary(Distribution):
    """What is installed is for one platform."""

    def has_ext_modules(self):
        return True


class PlatformWheel(bdist_wheel):
    """A wheel for any Python 3 on this platform: the library is C, and knows nothing of Python."""

    def get_tag(self):
        return "py3", "none", super().get_tag()[2]


with tempfile.TemporaryDirectory(prefix="texcache-wheel-") as made:
    LIBRARY = library(Path(made))
    (Path(made) / "egg").mkdir()
    setup(version=version_of(LIBRARY), distclass=WithBinary, cmdclass={"build_py": BuildWithLibrary, "bdist_wheel": PlatformWheel},
          options={"build": {"build_base": f"{made}/build"}, "egg_info": {"egg_base": f"{made}/egg"}})
