"""Runs the commands of docs/PICTURES.md on an image, and compares texcache's `info` of their output with the line in
front of each command.

The commands that help against a refusal are tried if they read in.tif, which is compressed (Deflate): texcache must
accept their output. A command whose program or Python package is not installed is a failure, or is skipped with
--skip-missing.
"""
import os
import re
import shlex
import shutil
import struct
import subprocess
import sys
import tempfile
import zlib
from pathlib import Path

from texcheck.common import TOP, Skips, add_program, debian_python, program_of, said
from texcheck.tiff import LITTLE, LONG, NARROW, SHORT, laid_out

HELP = "the commands of docs/PICTURES.md that convert images"
WIDTH, HEIGHT = 200, 120
PICTURE = bytes((7 * x + 13 * y + 29 * c) % 256 for y in range(HEIGHT) for x in range(WIDTH) for c in range(3))
ROW = re.compile(r"^- [^`\n]+: `(info [\d ]+)`\n  `([^`\n]+)`$", re.M)
HELP_LINE = re.compile(r"^- `bad file [\d ]+`: .+\n  `([^`\n]+)`$", re.M)


def png():
    """The picture as PNG."""
    def chunk(kind, data):
        return struct.pack(">I", len(data)) + kind + data + struct.pack(">I", zlib.crc32(kind + data))
    rows = b"".join(b"\0" + PICTURE[at:at + 3 * WIDTH] for at in range(0, len(PICTURE), 3 * WIDTH))
    head = struct.pack(">IIBBBBB", WIDTH, HEIGHT, 8, 2, 0, 0, 0)
    return b"\x89PNG\r\n\x1a\n" + chunk(b"IHDR", head) + chunk(b"IDAT", zlib.compress(rows)) + chunk(b"IEND", b"")


def tiff():
    """The picture as TIFF in one strip, compressed by Deflate."""
    def fields(offsets, sizes):
        return [(256, SHORT, [WIDTH]), (257, SHORT, [HEIGHT]), (258, SHORT, [8, 8, 8]), (259, SHORT, [8]),
                (262, SHORT, [2]), (273, LONG, offsets), (277, SHORT, [3]), (278, SHORT, [HEIGHT]),
                (279, LONG, sizes), (284, SHORT, [1]), (339, SHORT, [1, 1, 1])]
    return laid_out(LITTLE, NARROW, [([zlib.compress(PICTURE)], None, fields)])


def program_named(name):
    """A program on the path. (Some machines have a stand-in before ImageMagick's command.)"""
    if name == "python3":
        return debian_python()
    found = [it for it in (shutil.which(name, path=folder) for folder in os.get_exec_path()) if it]
    if name == "convert":
        found = [it for it in found if said([it, "-version"])[1].startswith("Version: ImageMagick")]
    return found[0] if found else None


def missing(name, words):
    """What a command needs and is not installed: its program, or a Python package that it imports."""
    if not words[0]:
        return name
    if name == "python3":
        wanted = re.findall(r"(?:import|from) (\w+)", words[2])[0]
        return None if said([words[0], "-c", f"import {wanted}"])[0] == 0 else f"Python's {wanted}"
    return None


def info(program, folder):
    ran = subprocess.run([program, "--workers", "1", folder], input="info out.tif\n", text=True,
                         stdout=subprocess.PIPE, stderr=subprocess.DEVNULL, check=False)
    return (ran.stdout.splitlines() or [""])[0]


def found_by(program, words, folder):
    """The answer of texcache to `info` of the file that a command writes."""
    (folder / "out.tif").unlink(missing_ok=True)
    status, text = said(words, cwd=folder)
    if status or not (folder / "out.tif").is_file():
        return f"nothing was written: {text[-500:]}"
    return info(program, folder)


def add_arguments(parser):
    add_program(parser, "texcache")
    Skips.add_argument(parser)


def run(args):
    program, skips = program_of(args, "texcache"), Skips(args)
    text = (TOP / "docs" / "PICTURES.md").read_text(encoding="utf-8")
    rows = ROW.findall(text) + [("info ", it) for it in HELP_LINE.findall(text) if " in." in it]
    if len(ROW.findall(text)) < 9 or len(HELP_LINE.findall(text)) < 9:
        sys.exit("pictures: docs/PICTURES.md has fewer lines than it had")
    tried, wrong = 0, 0
    with tempfile.TemporaryDirectory() as room:
        folder = Path(room)
        (folder / "in.png").write_bytes(png())
        (folder / "in.tif").write_bytes(tiff())
        for wanted, command in rows:
            name, *words = shlex.split(command)
            words = [program_named(name), *words]
            if skips.lacks(missing(name, words), command):
                continue
            tried += 1
            found = found_by(program, words, folder)
            if not found.startswith(wanted) if wanted == "info " else found != wanted:
                wrong += 1
                print(f"{command}: {found}, wanted {wanted}", file=sys.stderr)
    print(f"pictures: {wrong} of {tried} commands do not write what docs/PICTURES.md says")
    return 1 if wrong or skips.failed else 0
