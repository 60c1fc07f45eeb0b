#!/usr/bin/env python3
"""Writes the pictures and the request lists of the benchmark into a folder. It takes 1.7 GB, and lists of 150 MB.

The pictures are uncompressed TIFF 6.0 (docs/FORMAT.md) with random samples that are the same at each run. `main` has a
tiled picture with stored levels and two large stripped ones, `many` 64 files of 16 MB, `small` 4,000 files of 12 KB,
`levels` 400 files of nine levels, `turn` eight stripped files and a wide one, `none` nothing. The lists are those of
rows.py, ROW.short and ROW.long in the folder `lists`.
"""

import argparse
import random
import shutil
import struct
import sys
from pathlib import Path
from typing import NamedTuple

from rows import (LARGE, LEVELS, LEVELS_SIDE, MANY, MANY_SIDE, MANY_TILE, ROWS, SIDE, SMALL, SMALL_SIDE, TILE, TURN,
                  TURN_SIDE, WIDE_SIZE)

NEEDED_BYTES = 2 * 10 ** 9
CHANNELS = 3
SHORT, LONG, ASCII = 3, 4, 2
SIZE = {SHORT: 2, LONG: 4, ASCII: 1}

# by this field OpenImageIO takes the directories behind the first as levels; texcache reads no such field
TEXTURE_FORMAT, PLAIN_TEXTURE = 33302, b"Plain Texture\0"


class Level(NamedTuple):
    """An image of three channels of 8 bits: in tiles of this side, or in strips of this number of rows."""

    width: int
    height: int
    tile: int = 0
    rows: int = 0

    def block_sizes(self):
        if self.tile:
            across, down = -(-self.width // self.tile), -(-self.height // self.tile)
            return [self.tile * self.tile * CHANNELS] * (across * down)
        tops = range(0, self.height, self.rows)
        return [min(self.rows, self.height - top) * self.width * CHANNELS for top in tops]


def halved(level):
    """The level and those behind it, down to 1 by 1."""
    yield level
    while (level.width, level.height) != (1, 1):
        level = level._replace(width=max(1, level.width // 2), height=max(1, level.height // 2))
        yield level


def fields(level, offsets, sizes, is_texture):
    """The fields of a level, in the order of their tags."""
    found = [
        (256, LONG, [level.width]), (257, LONG, [level.height]), (258, SHORT, [8] * CHANNELS),
        (259, SHORT, [1]), (262, SHORT, [2]), (277, SHORT, [CHANNELS]), (284, SHORT, [1]),
    ]
    if level.tile:
        found += [(322, LONG, [level.tile]), (323, LONG, [level.tile]), (324, LONG, offsets), (325, LONG, sizes)]
    else:
        found += [(273, LONG, offsets), (278, LONG, [level.rows]), (279, LONG, sizes)]
    if is_texture:
        found.append((TEXTURE_FORMAT, ASCII, PLAIN_TEXTURE))
    return sorted(found)


def directory(found, at):
    """The bytes of a directory that stands at a place, with the values that do not fit in its entries."""
    entries, values = b"", b""
    behind = at + 2 + 12 * len(found) + 4
    for tag, kind, numbers in found:
        letter = {SHORT: "H", LONG: "I", ASCII: "B"}[kind]
        data = struct.pack("<" + letter * len(numbers), *numbers)
        entries += struct.pack("<HHI", tag, kind, len(numbers))
        if len(data) > 4:
            entries += struct.pack("<I", behind + len(values))
            values += data + b"\0" * (len(data) % 2)
        else:
            entries += data.ljust(4, b"\0")
    return struct.pack("<H", len(found)) + entries + bytes(4) + values


def write_picture(path, levels, noise):
    """The blocks of each level, each followed by the level's directory."""
    levels = list(levels)
    with open(path, "wb") as file:
        file.write(b"II*\0" + bytes(4))
        link = 4
        for level in levels:
            offsets, sizes = [], level.block_sizes()
            for size in sizes:
                offsets.append(file.tell())
                file.write(noise.randbytes(size))
            file.write(b"\0" * (file.tell() % 2))
            at = file.tell()
            found = fields(level, offsets, sizes, len(levels) > 1)
            file.write(directory(found, at))
            file.seek(link)
            file.write(struct.pack("<I", at))
            link = at + 2 + 12 * len(found)
            file.seek(0, 2)


def write_pictures(folder):
    noise = random.Random(1)
    for name in ("main", "many", "small", "levels", "turn", "none"):
        (folder / name).mkdir(parents=True, exist_ok=True)
    write_picture(folder / "main" / "t.tif", halved(Level(SIDE, SIDE, tile=TILE)), noise)
    for name, side in LARGE.items():
        write_picture(folder / "main" / name, [Level(side, side, rows=32)], noise)
    for name in MANY:
        write_picture(folder / "many" / name, [Level(MANY_SIDE, MANY_SIDE, tile=MANY_TILE)], noise)
    for name in SMALL:
        write_picture(folder / "small" / name, [Level(SMALL_SIDE, SMALL_SIDE, tile=SMALL_SIDE)], noise)
    for name in LEVELS:
        write_picture(folder / "levels" / name, halved(Level(LEVELS_SIDE, LEVELS_SIDE, tile=TILE)), noise)
    for name in TURN:
        write_picture(folder / "turn" / name, [Level(TURN_SIDE, TURN_SIDE, rows=32)], noise)
    write_picture(folder / "turn" / "wide.tif", [Level(*WIDE_SIZE, rows=32)], noise)


def write_lists(folder, rows):
    (folder / "lists").mkdir(parents=True, exist_ok=True)
    for row in rows:
        for kind, lines in row.lists():
            path = folder / "lists" / f"{row.name}.{kind}"
            path.write_text("".join(line + "\n" for line in lines), encoding="utf-8")


def make(folder, rows=tuple(ROWS.values())):
    """Makes all files and lists that the folder does not have yet."""
    folder.mkdir(parents=True, exist_ok=True)
    write_lists(folder, rows)
    if (folder / "done").exists():
        return
    if shutil.disk_usage(folder).free < NEEDED_BYTES:
        sys.exit(f"make_files.py: {folder} has less than {NEEDED_BYTES} bytes free")
    write_pictures(folder)
    (folder / "done").touch()


if __name__ == "__main__":
    parser = argparse.ArgumentParser(description=__doc__, formatter_class=argparse.RawDescriptionHelpFormatter)
    parser.add_argument("folder", type=Path, help="where the files are made")
    make(parser.parse_args().folder)
