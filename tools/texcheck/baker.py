"""Tests examples/baker/bake.py beside formulas: a plane, a cylinder and a mesh, UDIM tiles, footprints, threads, and a new
start after Ctrl-C. With GNU parallel the commands of --list give the same textures.

The image of most tests is a ramp: its filtered value at s and t is linear whatever the footprint is, so each texel of an
output follows from where it lies. A fine chequer shows that footprints are filtered. The package texcache reads the results.
"""
import os
import shutil
import tempfile
from pathlib import Path

from texcheck.archive import archive_of
from texcheck.common import TOP, Skips, add_program, debian_python, lacking_module, program_of, said
from texcheck.tree import shared

HELP = "the baker of the examples, beside formulas"


def add_arguments(parser):
    add_program(parser, "texmake")
    parser.add_argument("--library", type=Path, metavar="FILE",
                        help="the library; else the proved one if it is up to date, or an unproved build")
    Skips.add_argument(parser)


def run(args):
    skips = Skips(args)
    if skips.lacks(lacking_module("numpy"), "baker"):
        return 1 if skips.failed else 0
    with tempfile.TemporaryDirectory() as room:
        library = Path(room) / "libtexcache.so"
        shared(archive_of(args.library), library)
        env = {it: value for it, value in os.environ.items() if not it.startswith(("PYTHON", "TEXCACHE"))}
        env |= {"PYTHONPATH": str(TOP / "python"), "TEXCACHE_LIBRARY": str(library), "PYTHONDONTWRITEBYTECODE": "1"}
        words = [debian_python(), TOP / "tools" / "viewer" / "baked.py", program_of(args, "texmake")]
        if not skips.lacks(None if shutil.which("parallel") else "parallel", "the baker's list by GNU parallel"):
            words.append("--parallel")
        status, text = said(words, seconds=900, env=env)
    print(text, end="")
    return 1 if status or skips.failed else 0
