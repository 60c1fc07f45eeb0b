"""Compares lookups on doubles and over footprints with OpenImageIO's, and with limits.

Bilinear lookups in a magnified texture are those of OpenImageIO, but for the last digits of its floats. In a slow zoom
into a ramp neighbouring pixels never differ by more than the ramp. The contrast that footprints leave of noise is that
of the model of the definitions, for every angle of the pixel grid, and no value jumps from frame to frame while a
footprint changes slowly. (bench/footprints.py prints the same, and what OpenImageIO and `texd` have.)
"""
import shutil
from pathlib import Path

from texcheck.archive import archive_of
from texcheck.common import TOP, Skips, debian_python, said

HELP = "lookups on doubles and over footprints, beside OpenImageIO"


def add_arguments(parser):
    parser.add_argument("--library", type=Path, metavar="FILE",
                        help="the library; else the proved one if it is up to date, or an unproved build")
    Skips.add_argument(parser)


def missing():
    """What is not installed."""
    if not shutil.which("c++"):
        return "a C++ compiler"
    if not shutil.which("maketx"):
        return "openimageio-tools"
    if not shutil.which("pkg-config") or said(["pkg-config", "--exists", "OpenImageIO"])[0]:
        return "libopenimageio-dev"
    return None if said([debian_python(), "-c", "import numpy"])[0] == 0 else "Python's numpy"


def run(args):
    skips = Skips(args)
    if skips.lacks(missing(), "beside-oiio"):
        return 1 if skips.failed else 0
    library = archive_of(args.library)
    status, text = said([debian_python(), TOP / "bench" / "footprints.py", "--library", library, "check"])
    print(text, end="")
    return 1 if status else 0
