"""Reads a file by docs/FORMAT.md alone: gives the levels that it stores, or its first fault.

Read it beside that page. For simplicity it looks everything up again when it needs it, and it shares nothing with the
crates.
"""
from collections import namedtuple

ORDERS = {b"II": "little", b"MM": "big"}

# A form of the file, by its number: the bytes of its header, of a directory's count and of an offset, and the
# bytes of a value, by its type.
Form = namedtuple("Form", "header count offset types")
FORMS = {42: Form(8, 2, 4, {3: 2, 4: 4}), 43: Form(16, 8, 8, {3: 2, 4: 4, 16: 8})}

DEFAULTS = {258: 1, 259: 1, 262: 1, 277: 1, 278: 2 ** 32 - 1, 284: 1, 339: 1}
OF_ANY = (256, 257, 258, 259, 262, 277, 284, 339)
OF_STRIPS, OF_TILES = (273, 278), (322, 323, 324)
MOST_SIDE, MOST_CHANNELS = 131072, 8

# A level that is stored. `texel` gives the stored samples of a column and a row; `tile` has the sides of its
# tiles, if it has some.
Page = namedtuple("Page", "width height depth photometric tile texel")


class Fault(Exception):
    """The first fault: its place in the order of faults, and its own numbers."""


class File:
    """The bytes of a file with a good header."""

    def __init__(self, data):
        self.data = data
        if len(data) < 8:
            raise Fault(1)
        if data[:2] not in ORDERS:
            raise Fault(2)
        self.order = ORDERS[data[:2]]
        version = self.number(2, 2)
        if version == 43 and len(data) < 16:
            raise Fault(1)
        if version not in FORMS or version == 43 and (self.number(4, 2), self.number(6, 2)) != (8, 0):
            raise Fault(3)
        self.form = FORMS[version]

    def number(self, at, size):
        return int.from_bytes(self.data[at:at + size], self.order)

    def holds(self, at, size):
        """Whether the file has this number of bytes from this offset on."""
        return at + size <= len(self.data)

    def first_directory(self):
        """The offset of the first directory, at the end of the header."""
        return self.number(self.form.header - self.form.offset, self.form.offset)

    def values(self, tag, entry):
        """The values of the entry at this offset."""
        kind, count = self.number(entry + 2, 2), self.number(entry + 4, self.form.offset)
        size = self.form.types.get(kind, 0)
        at = entry + 4 + self.form.offset
        if size * count > self.form.offset:
            at = self.number(at, self.form.offset)
        if size * count == 0 or not self.holds(at, size * count):
            raise Fault(6, tag)
        return [self.number(at + k * size, size) for k in range(count)]


class Directory:
    """A directory without the faults 4 to 11."""

    def __init__(self, file, at):
        self.file = file
        entries, self.following = self.entries_and_next(at)
        self.is_tiled = 322 in entries
        for tag in (256, 257, 323, 324) if self.is_tiled else (256, 257, 273):
            if tag not in entries:
                raise Fault(5, tag)
        read = sorted((*OF_ANY, *(OF_TILES if self.is_tiled else OF_STRIPS)))
        self.fields = {tag: file.values(tag, entries[tag]) for tag in read if tag in entries}
        self.look_for_unsupported()
        self.look_for_bad_sizes()
        if len(self.fields[self.blocks_tag()]) < self.planes() * self.blocks_of_plane():
            raise Fault(11)

    def entries_and_next(self, at):
        """The offset of the first entry of each tag, and the offset of the next directory."""
        form = self.file.form
        size = 4 + 2 * form.offset
        if at < form.header or not self.file.holds(at, form.count):
            raise Fault(4)
        first, count = at + form.count, self.file.number(at, form.count)
        if not self.file.holds(first, count * size + form.offset):
            raise Fault(4)
        found = {}
        for k in range(count):
            found.setdefault(self.file.number(first + k * size, 2), first + k * size)
        return found, self.file.number(first + count * size, form.offset)

    def one(self, tag):
        """A field that holds one number."""
        return self.fields[tag][0] if tag in self.fields else DEFAULTS[tag]

    def of_channels(self, tag):
        """The offsets of the blocks that have this channel."""
        return self.fields.get(tag, [DEFAULTS[tag]])[:self.one(277)]

    def look_for_unsupported(self):
        cases = [(258, [self.one(258)], (8, 16)), (258, self.of_channels(258), (self.one(258),)),
                 (259, [self.one(259)], (1,)), (262, [self.one(262)], (0, 1, 2)), (284, [self.one(284)], (1, 2)),
                 (339, self.of_channels(339), (1, 4))]
        for tag, values, supported in cases:
            for value in values:
                if value not in supported:
                    raise Fault(7, tag, value)

    def look_for_bad_sizes(self):
        sides, channels = [self.one(256), self.one(257)], self.one(277)
        if 0 in (*sides, channels) or not self.is_tiled and self.one(278) == 0:
            raise Fault(8)
        if max(sides) > MOST_SIDE or channels > MOST_CHANNELS:
            raise Fault(9)
        tile = [self.one(322), self.one(323)] if self.is_tiled else []
        if any(side == 0 or side > MOST_SIDE or side % 16 for side in tile):
            raise Fault(10)

    def blocks_tag(self):
        return 324 if self.is_tiled else 273

    def planes(self):
        return self.one(277) if self.one(284) == 2 else 1

    def samples_of_pixel(self):
        """How many samples of a pixel are stored side by side."""
        return self.one(277) // self.planes()

    def across(self):
        """How many tiles a row of tiles has."""
        return (self.one(256) + self.one(322) - 1) // self.one(322)

    def blocks_of_plane(self):
        if self.is_tiled:
            return self.across() * ((self.one(257) + self.one(323) - 1) // self.one(323))
        return (self.one(257) + self.one(278) - 1) // self.one(278)

    def block_bytes(self, index):
        """The bytes of a strip or a tile; the last strip of a plane may have fewer rows."""
        if self.is_tiled:
            texels = self.one(322) * self.one(323)
        else:
            above = index % self.blocks_of_plane() * self.one(278)
            texels = min(self.one(278), self.one(257) - above) * self.one(256)
        return texels * self.samples_of_pixel() * self.one(258) // 8

    def look_for_data_outside(self, level):
        for index in range(self.planes() * self.blocks_of_plane()):
            at = self.fields[self.blocks_tag()][index]
            if at < self.file.form.header or not self.file.holds(at, self.block_bytes(index)):
                raise Fault(12, level, index)

    def sample(self, x, y, channel):
        """The sample of a channel, as it is stored."""
        if self.is_tiled:
            wide, high = self.one(322), self.one(323)
            block, texels = y // high * self.across() + x // wide, y % high * wide + x % wide
        else:
            block, texels = y // self.one(278), y % self.one(278) * self.one(256) + x
        plane, beside = (channel, 0) if self.planes() > 1 else (0, channel)
        size = self.one(258) // 8
        at = self.fields[self.blocks_tag()][plane * self.blocks_of_plane() + block]
        return self.file.number(at + (texels * self.samples_of_pixel() + beside) * size, size)

    def page(self):
        tile = (self.one(322), self.one(323)) if self.is_tiled else None
        return Page(self.one(256), self.one(257), self.one(258), self.one(262), tile,
                    lambda x, y: [self.sample(x, y, channel) for channel in range(self.one(277))])

    def is_next_level(self, other):
        """Whether the other one is the next level after this one."""
        half = [max(1, self.one(tag) // 2) for tag in (256, 257)]
        return [other.one(256), other.one(257)] == half and all(
            other.one(tag) == self.one(tag) for tag in (258, 277))


def pages_of(data):
    """The levels that a file of these bytes stores; raises its fault."""
    file = File(data)
    found = [Directory(file, file.first_directory())]
    while found[-1].following and (found[-1].one(256), found[-1].one(257)) != (1, 1):
        try:
            further = Directory(file, found[-1].following)
        except Fault:
            break
        if not found[-1].is_next_level(further):
            break
        found.append(further)
    for level, directory in enumerate(found):
        directory.look_for_data_outside(level)
    return [it.page() for it in found]
