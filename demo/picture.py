#!/usr/bin/env python3
"""Draws a texture through lookups: asks the program for a grid of lookups, and writes the values as a PNG.
`python3 picture.py --help` lists the options. It needs Python's standard library only."""
import argparse
import struct
import subprocess
import sys
import zlib
from pathlib import Path

# coordinates, shares of a texel and levels are in 1/65536
ONE = 65536
TOP = Path(__file__).resolve().parent.parent


def arguments():
    read = argparse.ArgumentParser(description=__doc__)
    read.add_argument("name", help="the file in the folder, as bricks.tif")
    read.add_argument("png", help="the PNG that is written")
    read.add_argument("--folder", default=str(TOP / "demo"))
    read.add_argument("--wrap", default="black", help="black, clamp, periodic or mirror")
    read.add_argument("--twrap", help="the wrap downwards, if it is another")
    read.add_argument("--filter", default="bilinear", help="closest, bilinear or trilinear")
    read.add_argument("--level", type=float, default=0.0, help="0 is the largest; 0.5 lies between two")
    read.add_argument("--levels-to", type=float, help="from --level at the left to this at the right")
    read.add_argument("--from", dest="start", type=float, nargs=2, default=[0.0, 0.0], metavar=("S", "T"))
    read.add_argument("--to", dest="end", type=float, nargs=2, default=[1.0, 1.0], metavar=("S", "T"))
    read.add_argument("--size", type=int, nargs=2, default=[128, 96], metavar=("WIDTH", "HEIGHT"))
    read.add_argument("--channels", type=int, default=3, help="1 for grey, 3 for colours")
    return read.parse_args()


def places(start, end, many):
    """The middles of `count` pixels between two coordinates, in 1/65536 of the image."""
    return [round(ONE * (start + (end - start) * (2 * i + 1) / (2 * many))) for i in range(many)]


def level_at(asked, x):
    """The level of a column, in 1/65536."""
    last = asked.level if asked.levels_to is None else asked.levels_to
    return round(ONE * (asked.level + (last - asked.level) * x / max(1, asked.size[0] - 1)))


def requests(asked):
    """A lookup for each pixel, row by row."""
    wide, high = asked.size
    down = asked.twrap or asked.wrap
    for t in places(asked.start[1], asked.end[1], high):
        for x, s in enumerate(places(asked.start[0], asked.end[0], wide)):
            yield (f"tex {s} {t} {level_at(asked, x)} {asked.wrap} {down} {asked.filter} "
                   f"{asked.channels} {asked.name}\n")


def answers(asked):
    """The values of each lookup, as the program prints them."""
    command = [str(TOP / "texcache"), asked.folder]
    done = subprocess.run(command, input="".join(requests(asked)), text=True,
                          stdout=subprocess.PIPE, check=False)
    closing = ("worker ", "total ")
    lines = [line for line in done.stdout.splitlines() if not line.startswith(closing)]
    for line in lines:
        if not line.startswith("tex "):
            sys.exit(f"picture.py: the program answered: {line}")
    if len(lines) != asked.size[0] * asked.size[1]:
        sys.exit(f"picture.py: {len(lines)} answers, status {done.returncode}")
    return [[int(value) for value in line.split()[2:]] for line in lines]


def png(width, height, channels, values):
    """A PNG of 8 bits a channel: the high byte of each value."""
    rows = b""
    for y in range(height):
        row = values[y * width:(y + 1) * width]
        rows += b"\0" + bytes(value >> 8 for texel in row for value in texel)

    def chunk(kind, data):
        return struct.pack(">I", len(data)) + kind + data + struct.pack(">I", zlib.crc32(kind + data))

    header = struct.pack(">2I5B", width, height, 8, 0 if channels == 1 else 2, 0, 0, 0)
    return (b"\x89PNG\r\n\x1a\n" + chunk(b"IHDR", header)
            + chunk(b"IDAT", zlib.compress(rows, 9)) + chunk(b"IEND", b""))


def main():
    asked = arguments()
    if asked.channels not in (1, 3):
        sys.exit("picture.py: a PNG here has 1 or 3 channels")
    wide, high = asked.size
    Path(asked.png).write_bytes(png(wide, high, asked.channels, answers(asked)))


if __name__ == "__main__":
    main()
