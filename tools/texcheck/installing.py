"""Installs the library, its headers, both programs, the tools and the documents into a folder: what ./install does."""
import argparse
import shutil
import sys
import tempfile
from pathlib import Path

from texcheck.common import Missing
from texcheck.tree import Parts, lay_out

ABOUT = """Installs texcache into the folder PREFIX, for example /usr/local or an empty folder of your own: the library
with its headers, pkg-config file, CMake package and Python package, both programs with their tools, man pages and
documents. The folder can be moved afterwards.

The library has to be proved: ./build tex_c proves it. A program that is not proved is installed all the same, and says
so at each run; ./build texcache and ./build texmake prove them.
"""
# folders that have nothing but our files
OWN = ("libexec/texcache", "lib/texcache", "share/doc/texcache")


def put(tree, prefix):
    """Copies the tree into the folder, in place of an older one."""
    for name in OWN:
        shutil.rmtree(prefix / name, ignore_errors=True)
    for path in sorted(tree.rglob("*")):
        target = prefix / path.relative_to(tree)
        if path.is_dir() and not path.is_symlink():
            target.mkdir(parents=True, exist_ok=True)
            continue
        # what is replaced may be in use
        target.unlink(missing_ok=True)
        shutil.copy2(path, target, follow_symlinks=False)


def install(prefix, may_be_unproved):
    """Installs everything, and returns what is to be said of it."""
    parts = Parts(may_be_unproved)
    with tempfile.TemporaryDirectory() as room:
        lay_out(parts, Path(room))
        prefix.mkdir(parents=True, exist_ok=True)
        put(Path(room), prefix)
    return f"texcache {parts.version} is installed in {prefix}. {parts.state()}"


def main():
    parser = argparse.ArgumentParser(prog="./install", description=ABOUT, allow_abbrev=False,
                                     formatter_class=argparse.RawDescriptionHelpFormatter)
    parser.add_argument("prefix", type=Path, metavar="PREFIX", help="the folder; it is made if it is missing")
    parser.add_argument("--unproved", action="store_true",
                        help="install an unproved build if the library is not proved; its version then says so")
    args = parser.parse_args()
    try:
        print(f"install: {install(args.prefix.resolve(), args.unproved)}")
        return 0
    except (Missing, OSError) as error:
        print(f"install: {error}", file=sys.stderr)
        return 1
