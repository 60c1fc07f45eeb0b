"""The files of the program's stored run that each show one rule of docs/FORMAT.md, or one fault.

A row of a table says what the file shows, how it is made, and what must be read from it, which was worked out by hand.
The tables are in file_rows.txt, with the bytes of the files from which the others are made. `to=7` keeps the first 7
bytes, and fills up with zeros if there are fewer. `8*3000` appends the number 8 3000 times, in two bytes each. `18=5,0`
writes 5 and 0 at offsets 18 and 19. What must be read are the levels with the offsets of their blocks, or the first
fault, with the numbers of docs/FORMAT.md.
"""
import re
import struct
from collections import namedtuple
from pathlib import Path

# A row: what its file shows, its name, its bytes, and its levels or its fault.
Row = namedtuple("Row", "shows name data levels fault")

# A level as it was read. If `planar`, each channel has its own plane. If `white`, 0 is white in channel 0, so its samples
# are inverted. `tile` is the width and height of its tiles; without tiles, `rows` is the number of rows in a strip.
Read = namedtuple("Read", "big width height channels depth planar white tile rows offsets")


def sections():
    """The tables of file_rows.txt, each by the name after its `==`."""
    text = Path(__file__).with_suffix(".txt").read_text(encoding="ascii")
    return {it.split(":")[0]: it.partition("\n")[2] for it in re.split(r"^== ", text, flags=re.M)[1:]}


def written_out(text):
    """The bytes of a file: numbers with commas between them, and comments."""
    return bytes(int(it, 0) for it in re.sub(r"#.*", "", text).replace(",", " ").split())


TABLES = sections()
SMALL, SMALL_BIG, HALF, WIDE, WIDE_BIG, WIDE_HALF, TILED_HEAD = (written_out(TABLES[it]) for it in (
    "SMALL", "SMALL_BIG", "HALF", "WIDE", "WIDE_BIG", "WIDE_HALF", "TILED_HEAD"))
# files of one directory; of several, and strips and tiles outside the file; with wide offsets
DIRECTORIES = TABLES["DIRECTORIES"]
LEVELS = TABLES["LEVELS"]
WIDE_OFFSETS = TABLES["WIDE_OFFSETS"]


def pages():
    """Two pages of 100 by 80, with directories at 8 and 122, and strips of 8000 bytes at 236 and 8236."""
    def directory(strip, following):
        entries = [(256, 3, 100), (257, 3, 80), (258, 3, 8), (259, 3, 1), (262, 3, 1), (273, 4, strip), (277, 3, 1),
                   (278, 3, 80), (279, 4, 8000)]
        return struct.pack("<H", 9) + b"".join(struct.pack("<HHII", tag, kind, 1, value)
                                               for tag, kind, value in entries) + struct.pack("<I", following)
    return (SMALL[:8] + directory(236, 122) + directory(8236, 0)).ljust(16236, b"\7")


def chain():
    """Levels of 131072 by 1 down to 1 by 1: 18 directories of 54 bytes, and zeros. Each level has one strip at 8.
    The last directory leads to the first."""
    made = SMALL[:8]
    for level in range(18):
        entries = [(256, 4, 131072 >> level), (257, 3, 1), (258, 3, 8), (273, 4, 8)]
        made += struct.pack("<H", 4) + b"".join(struct.pack("<HHII", tag, kind, 1, value)
                                                for tag, kind, value in entries)
        made += struct.pack("<I", 8 if level == 17 else 62 + 54 * level)
    return made.ljust(131080, b"\0")


def tiled():
    """80 by 48, 16 bits, three channels, big-endian, tiles of 64 by 32; channel c of the texel (x, y) is
    20000 * c + 100 * y + x, and the padding 65535."""
    def sample(x, y, c):
        return 20000 * c + 100 * y + x if x < 80 and y < 48 else 65535
    made = TILED_HEAD
    for top in (0, 32):
        for left in (0, 64):
            made += b"".join(struct.pack(">H", sample(left + x, top + y, c))
                             for y in range(32) for x in range(64) for c in range(3))
    return made


def leading(file, at, to, half):
    """A file with a second directory at its end, to which the first one leads."""
    return file[:at] + bytes([to]) + file[at + 1:] + half


WRITTEN_OUT = {
    "A": SMALL, "BigA": SMALL_BIG, "B": tiled(), "Two": leading(SMALL, 118, 138, HALF), "Wide": WIDE,
    "BigWide": WIDE_BIG, "WideTwo": leading(WIDE, 204, 228, WIDE_HALF), "Pages": pages(), "Chain": chain(),
}


def made(text):
    """The file of a text."""
    name, *changes = text.split()
    file = bytearray(WRITTEN_OUT[name])
    for change in changes:
        if "*" in change:
            short, count = map(int, change.split("*"))
            file += struct.pack("<H", short) * count
            continue
        place, numbers = change.split("=")
        if place == "to":
            file = bytearray(bytes(file)[:int(numbers)].ljust(int(numbers), b"\0"))
            continue
        changed = bytes(map(int, numbers.split(",")))
        assert int(place) + len(changed) <= len(file), text
        file[int(place):int(place) + len(changed)] = changed
    return bytes(file)


FAULTS = ["Short", "BadMark", "BadVersion", "DirOutside", "FieldMissing", "FieldShape", "Unsupported", "ZeroSize",
          "TooLarge", "TileShape", "OffsetCount", "DataOutside"]
LEVEL = re.compile(r"(\d+)x(\d+), (\d+) of (\d+) bits(, planar)?(, white)?, (?:strips of (\d+)|tiles of (\d+)x(\d+)) at ([\d ]+)")


def levels_of(big, text):
    """The levels that a text names."""
    found = []
    for part in text.split(";"):
        width, height, channels, depth, planar, white, rows, across, down, offsets = LEVEL.fullmatch(part.strip()).groups()
        tile = (int(across), int(down)) if across else None
        found.append(Read(big, int(width), int(height), int(channels), int(depth), bool(planar), bool(white), tile,
                          int(rows or 0), tuple(map(int, offsets.split()))))
    return found


def sample_of(data, level, x, y, channel):
    """The stored sample of a channel of a texel."""
    across, down = level.tile or (level.width, min(level.rows, level.height))
    wide, high = -(-level.width // across), -(-level.height // down)
    block = y // down * wide + x // across
    within = y % down * across + x % across
    if level.planar:
        block += channel * wide * high
    else:
        within = within * level.channels + channel
    size = level.depth // 8
    at = level.offsets[block] + within * size
    return int.from_bytes(data[at:at + size], "big" if level.big else "little")


def table(letter, text):
    """The rows of a table. Their files are named by the letter and a number."""
    lines = re.sub(r" *\\\n *", " ", text.strip()).splitlines()
    for number, line in enumerate(it for it in lines if not it.startswith("#")):
        shows, how, read = line.split(" | ")
        name, data = f"{letter}{number + 1:03}.tif", made(how)
        kind = re.match(r"\w+", read)[0]
        if kind in FAULTS:
            fault = " ".join([str(FAULTS.index(kind) + 1), *re.findall(r": (\d+)", read)])
            yield Row(shows, name, data, None, fault)
        else:
            order, levels = read.split(": ", 1)
            yield Row(shows, name, data, levels_of(order == "MM", levels), None)


ROWS = [*table("d", DIRECTORIES), *table("l", LEVELS), *table("w", WIDE_OFFSETS)]


def requests():
    """What the stored run asks of each file, a comment with what the file shows in front: its facts, and of
    a level its texels, of a large one four at each end."""
    for row in ROWS:
        yield f"# {row.shows}"
        yield f"info {row.name}"
        for number, level in enumerate(row.levels or ()):
            width, height = min(level.width, 4), min(level.height, 4)
            yield f"pixels {number} 0 0 {width} {height} {row.name}"
            if level.width * level.height > 16:
                yield f"pixels {number} {level.width - width} {level.height - height} {width} {height} {row.name}"
