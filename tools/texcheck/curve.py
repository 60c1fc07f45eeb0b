"""Draws docs/pictures/hit_curve.svg with tools/hit_curve.py: how often the demo's texture of hills is read with each
budget, by one worker with one shard.

The list asks for two pictures of the whole texture, 48 by 32 pixels each, row by row: trilinear lookups half way
between level 0 and level 1. With --write the picture is written; without it it is compared.
"""
import subprocess
import sys
import tempfile
from pathlib import Path

from texcheck.common import TOP, add_program, program_of

HELP = "the curve of docs/CACHE.md"
FOLDER = TOP / "demo" / "textures"
ONE, WIDTH, HEIGHT, PICTURES = 65536, 48, 32, 2
WORDS = ["--least", "2K", "--most", "64K", "--workers", "1", "--shards", "1", "--seconds", "600"]


def middles(many):
    """The middles of this number of pixels, side by side."""
    return [ONE * (2 * k + 1) // (2 * many) for k in range(many)]


def scene():
    """The requests of the list."""
    for _ in range(PICTURES):
        for t in middles(HEIGHT):
            yield from (f"tex {s} {t} {ONE // 2} periodic periodic trilinear 3 hills.tif" for s in middles(WIDTH))


def add_arguments(parser):
    add_program(parser, "texcache")
    parser.add_argument("--list", action="store_true", help="print the list, and run nothing")
    parser.add_argument("--write", action="store_true", help="write the picture")


def run(args):
    if args.list:
        print(*scene(), sep="\n")
        return 0
    with tempfile.TemporaryDirectory() as room:
        requests = Path(room) / "list"
        requests.write_text("".join(f"{it}\n" for it in scene()), encoding="ascii")
        command = [sys.executable, TOP / "tools" / "hit_curve.py", FOLDER, requests, *WORDS, "--reads-only",
                   "--title", "Reads of the demo's texture of hills", "--svg",
                   TOP / "docs" / "pictures" / "hit_curve.svg", f"--program={program_of(args, 'texcache')}"]
        return subprocess.run([*command, *([] if args.write else ["--check"])], check=False).returncode
