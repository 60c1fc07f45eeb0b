"""The only TIFF writer of the tools (docs/FORMAT.md). plain_reader.py reads its files back and shares nothing with it
on purpose: each checks the other. The files of file_rows.py are written byte by byte and check both."""
import struct
from collections import namedtuple
from functools import partial

LITTLE, BIG = "<", ">"
MARKS = {LITTLE: b"II", BIG: b"MM"}
WHITE_IS_ZERO, BLACK_IS_ZERO, RGB = 0, 1, 2

# The types of values, by the letters that pack one. LONG8 exists only with wide offsets.
SHORT, LONG, LONG8 = 3, 4, 16
LETTERS = {SHORT: "H", LONG: "I", LONG8: "Q"}

# The form of a file: the number after the mark, the bytes between it and the offset of the first directory, and
# the letters of a directory's count and of an offset.
Form = namedtuple("Form", "version behind count offset")
NARROW = Form(42, b"", "H", "I")
WIDE = {LITTLE: Form(43, b"\x08\0\0\0", "Q", "Q"), BIG: Form(43, b"\0\x08\0\0", "Q", "Q")}

# A level of a file: `texel` gives the stored samples of a column and a row. It is cut into tiles of the size `tile`,
# or into strips of `rows` rows. The blocks are placed in the file in the order `stored`. Their offsets have
# the type `offset_type`. `spoken` are the tags of optional fields that are written too. If `planar`, each channel has
# a plane of its own. `types` gives the type of a field, by its tag, if it is not the usual one.
Level = namedtuple("Level", "width height texel depth photometric tile rows offset_type stored spoken planar types",
                   defaults=(8, BLACK_IS_ZERO, None, None, LONG, None, (), False, {}))


def channels(level):
    return len(level.texel(0, 0))


def block(order, level, left, top, width, height):
    """The bytes of a strip or a tile. The padding of a tile, which is never answered, is full."""
    padding = [2 ** level.depth - 1] * channels(level)
    samples = []
    for y in range(top, top + height):
        for x in range(left, left + width):
            samples += level.texel(x, y) if x < level.width and y < level.height else padding
    return struct.pack(order + ("B" if level.depth == 8 else "H") * len(samples), *samples)


def blocks(order, level):
    """The strips, or the tiles from left to right and then from top to bottom; plane by plane if it is planar."""
    if level.planar:
        planes = [level._replace(planar=False, texel=lambda x, y, c=c: level.texel(x, y)[c:c + 1])
                  for c in range(channels(level))]
        return [it for plane in planes for it in blocks(order, plane)]
    if level.tile:
        across, down = level.tile
        return [block(order, level, left, top, across, down)
                for top in range(0, level.height, down) for left in range(0, level.width, across)]
    return [block(order, level, 0, top, level.width, min(level.rows, level.height - top))
            for top in range(0, level.height, level.rows)]


def fields(level, offsets, sizes):
    """The fields of a level, in the order of their tags."""
    kind, count = level.offset_type, channels(level)
    found = [(256, LONG if level.width > 65535 else SHORT, [level.width]), (257, SHORT, [level.height]),
             (258, SHORT, [level.depth] * count), (259, SHORT, [1]), (262, SHORT, [level.photometric]),
             (277, SHORT, [count])]
    if level.tile:
        found += [(322, SHORT, [level.tile[0]]), (323, SHORT, [level.tile[1]]), (324, kind, offsets)]
    else:
        found += [(273, kind, offsets), (278, SHORT, [level.rows]), (279, kind, sizes)]
    extra = count - (3 if level.photometric == RGB else 1)
    optional = {284: (SHORT, [1]), 325: (kind, sizes), 338: (SHORT, [0] * extra)}
    found += [(tag, *optional[tag]) for tag in level.spoken if optional[tag][1]]
    if level.planar:
        found += [(284, SHORT, [2])]
    return sorted((tag, level.types.get(tag, usual), numbers) for tag, usual, numbers in found)


def entries_of(order, form, found, behind):
    """The entries of these fields, and the values that do not fit in them, which begin at byte `behind`."""
    entries, values = b"", b""
    for tag, kind, numbers in found:
        stored = struct.pack(order + LETTERS[kind] * len(numbers), *numbers)
        offset = struct.pack(order + form.offset, behind + len(values))
        entries += struct.pack(order + "HH" + form.offset, tag, kind, len(numbers))
        if len(stored) > len(offset):
            entries += offset
            values += stored
        else:
            entries += stored.ljust(len(offset), b"\0")
    return entries, values


def directory(order, form, found, at, following):
    """A directory at a place: its entries, the place of the next one, and its values after it."""
    count = struct.pack(order + form.count, len(found))
    after = struct.pack(order + form.offset, following)
    length = len(entries_of(order, form, found, 0)[0])
    entries, values = entries_of(order, form, found, at + len(count) + length + len(after))
    return count + entries + after + values


def laid_out(order, form, levels, is_mixed=False):
    """A file of levels, each given as its blocks, the order in which they are stored, and a function that gives its
    fields for their offsets and sizes. The blocks follow all directories, or, if it is mixed, each its own."""
    head = MARKS[order] + struct.pack(order + "H", form.version) + form.behind
    sizes = [[len(it) for it in stored] for stored, _, _ in levels]
    lengths = [len(directory(order, form, of(it, it), 0, 0)) for it, (_, _, of) in zip(sizes, levels)]
    numbers, places, starts = range(len(levels)), {}, {}
    parts = [(number, is_block) for number in numbers for is_block in (False, True)]
    at = len(head) + struct.calcsize(order + form.offset)
    for number, is_block in parts if is_mixed else sorted(parts, key=lambda it: it[1]):
        at += at % 2 if is_mixed and not is_block else 0
        (starts if is_block else places)[number] = at
        at += sum(sizes[number]) if is_block else lengths[number]
    made = bytearray(at)
    made[:places[0]] = head + struct.pack(order + form.offset, places[0])
    for number, (stored, turn, of) in enumerate(levels):
        offsets, at = [0] * len(stored), starts[number]
        for index in turn or range(len(stored)):
            made[at:at + len(stored[index])] = stored[index]
            offsets[index], at = at, at + len(stored[index])
        place = places[number]
        made[place:place + lengths[number]] = directory(order, form, of(offsets, sizes[number]), place,
                                                        places.get(number + 1, 0))
    return bytes(made)


def tiff(order, levels, form=NARROW, is_mixed=False):
    """The file of these levels."""
    return laid_out(order, form, [(blocks(order, it), it.stored, partial(fields, it)) for it in levels], is_mixed)
