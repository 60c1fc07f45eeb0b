"""Compares lookups on doubles, at places and over footprints, with a plain program that is written from the definitions
alone (fine_model.py). They go through the Python package, and so through the C part and the proved library.

The pictures are 3, 100, 2048, 8192 and 131072 texels wide, with noise in all their levels; the largest is a sparse file
with noise in some tiles. Coordinates are drawn from all over their ranges, near the edges and the middles of texels
too. Footprints are of all shapes and sizes: round and nearly so, thin, huge, tiny, of no size, with both steps alike,
turned, mirrored, and at the limits of the ranges. Every value has to be the same. With --full there are 100,000
lookups and 20,000 footprints.
"""
import os
import random
import shutil
import sys
import tempfile
from concurrent.futures import ProcessPoolExecutor
from functools import partial
from math import cos, pi, sin
from pathlib import Path

from texcheck import fine_model as model
from texcheck.archive import archive_of
from texcheck.common import TOP, Skips
from texcheck.tiff import LITTLE, LONG, LONG8, MARKS, SHORT, WIDE, directory
from texcheck.tree import shared

HELP = "lookups on doubles and over footprints, beside a plain program"
LOOKUPS, FOOTPRINTS, FULL_LOOKUPS, FULL_FOOTPRINTS = 5000, 1000, 100000, 20000
TOGETHER = 100
# On the picture of FILTERING, 4 by 4 with the samples 16 y + x, by clamp: a footprint and its value, worked out there.
WORKED = [((0.125, 0.5, 1.0, 0, 0, 0.25), 6293), ((0.5, 0.5, 1.0, 0, 0, 0.25), 6554)]


class Picture:
    """A picture of noise in tiles, with all its levels. Of a sparse one, only the tiles of level 0 that are given by
    their places are noise, and those at the same places in the other levels; the others are 0."""

    def __init__(self, name, width, height, channels, depth, tile, sparse=None):
        self.name, self.channels, self.depth, self.tile, self.sparse = name, channels, depth, tile, sparse
        self.sizes = [(width, height)]
        while self.sizes[-1] != (1, 1):
            self.sizes.append(tuple(max(1, it // 2) for it in self.sizes[-1]))
        self.kept = {}

    def across(self, level):
        return tuple(-(-it // self.tile) for it in self.sizes[level])

    def is_noise(self, level, x, y):
        if self.sparse is None:
            return True
        side = self.across(0)[0]
        return any(it[0] * self.across(level)[0] // side == x and it[1] * self.across(level)[1] // side == y
                   for it in self.sparse)

    def bytes_of(self, level, x, y):
        """The bytes of a tile, or None if all are 0."""
        key = level, x, y
        if key not in self.kept:
            count = self.tile ** 2 * self.channels * self.depth // 8
            is_noise = self.is_noise(*key)
            self.kept[key] = random.Random(f"{self.name} {key}").randbytes(count) if is_noise else None
        return self.kept[key]

    def value(self, level, x, y):
        """The 16-bit values of a texel."""
        found = self.bytes_of(level, x // self.tile, y // self.tile)
        if found is None:
            return (0,) * self.channels
        at = (y % self.tile * self.tile + x % self.tile) * self.channels
        if self.depth == 8:
            return tuple(257 * it for it in found[at:at + self.channels])
        return tuple(found[2 * it] + 256 * found[2 * it + 1] for it in range(at, at + self.channels))

    def fields(self, level, offsets):
        width, height = self.sizes[level]
        return [(256, LONG, [width]), (257, LONG, [height]), (258, SHORT, [self.depth] * self.channels),
                (259, SHORT, [1]), (262, SHORT, [2 if self.channels == 3 else 1]), (277, SHORT, [self.channels]),
                (322, LONG, [self.tile]), (323, LONG, [self.tile]), (324, LONG8, offsets)]

    def write(self, folder):
        """Writes the file: all directories, and then the tiles, of which those that are 0 are holes."""
        form, at, places = WIDE[LITTLE], 16, []
        levels = range(len(self.sizes))
        tiles = [[(x, y) for y in range(self.across(it)[1]) for x in range(self.across(it)[0])] for it in levels]
        for level in levels:
            places.append(at)
            at += len(directory(LITTLE, form, self.fields(level, [0] * len(tiles[level])), 0, 0))
        size = self.tile ** 2 * self.channels * self.depth // 8
        with open(folder / self.name, "wb") as file:
            file.write(MARKS[LITTLE] + b"\x2b\0" + form.behind + (16).to_bytes(8, "little"))
            for level in levels:
                offsets = [at + n * size for n in range(len(tiles[level]))]
                file.seek(places[level])
                following = places[level + 1] if level + 1 < len(places) else 0
                file.write(directory(LITTLE, form, self.fields(level, offsets), places[level], following))
                for offset, place in zip(offsets, tiles[level]):
                    found = self.bytes_of(level, *place)
                    if found is not None:
                        file.seek(offset)
                        file.write(found)
                    if self.sparse is None and size > 4096:
                        self.kept.pop((level, *place))
                at += len(offsets) * size
            file.truncate(at)


def pictures():
    drawn = random.Random("sparse")
    tiles = [(drawn.randrange(128), drawn.randrange(128)) for _ in range(20)]
    yield Picture("w3.tif", 3, 5, 3, 16, 16)
    yield Picture("w100.tif", 100, 37, 4, 8, 16)
    yield Picture("w2048.tif", 2048, 1024, 3, 16, 64)
    yield Picture("w8192.tif", 8192, 6000, 1, 8, 256)
    yield Picture("w131072.tif", 131072, 131072, 1, 8, 1024, tiles)


# ---- what is drawn

def coordinate(drawn, n, limit):
    """A coordinate along n texels, up to `limit` images from 0."""
    kind = drawn.randrange(10)
    if kind < 3:
        return drawn.random()
    if kind < 5:
        return drawn.uniform(-3, 3)
    if kind < 7:
        # near an edge or a middle of a texel
        at = (drawn.randrange(-n, 2 * n) + drawn.choice((0, 0.5))) / n
        return at + drawn.choice((0, 0, 1, -1, 0.5, -0.5)) * 2.0 ** -drawn.randrange(17, 60)
    if kind < 8:
        return drawn.choice((0.0, -0.0, 5e-324, -1e-300, 2.0 ** -33, -2.0 ** -33, 1.0, -1.0, 0.5, 1 / 3))
    if kind < 9:
        return drawn.uniform(-limit, limit)
    return drawn.choice((-1, 1)) * (limit - drawn.random() * 2.0 ** -drawn.randrange(40) - 2.0 ** -32)


def places(drawn, picture, limit):
    """S and t; of a sparse picture most are in its noise."""
    if picture.sparse and drawn.random() < 0.8:
        side = picture.across(0)[0]
        return [(it + drawn.random()) / side for it in drawn.choice(picture.sparse)]
    return [coordinate(drawn, n, limit) for n in picture.sizes[0]]


def level(drawn, picture):
    last = len(picture.sizes)
    return drawn.choice((0.0, drawn.uniform(-1, last), drawn.randrange(last), drawn.randrange(last) + 0.5,
                         drawn.randrange(1, last + 1) + drawn.choice((-1, 1)) * 2.0 ** -drawn.randrange(10, 20), 65535.0))


def turned(major, minor, along, grid, is_mirrored):
    """The steps to the next pixels over an ellipse in texels, whose longer axis and pixel grid are turned."""
    steps = []
    for k in (grid, grid + (-pi / 2 if is_mirrored else pi / 2)):
        x, y = major * cos(k), minor * sin(k)
        steps += [x * cos(along) - y * sin(along), x * sin(along) + y * cos(along)]
    return steps


def derivatives(drawn, picture):
    """The four derivatives of a footprint, in images."""
    w, h = picture.sizes[0]
    kind = drawn.randrange(12)
    least = 2.0 ** drawn.uniform(-3, 8)
    angle = partial(drawn.uniform, -pi, pi)
    if kind < 6:
        ratio = drawn.choice((drawn.uniform(1, 1.3), drawn.uniform(1, 16), 2.0 ** drawn.uniform(0, 9), 9 / 8, 1.0))
        steps = turned(least * ratio, least, drawn.choice((0, angle())), drawn.choice((0, angle())), drawn.randrange(2))
    elif kind < 7:
        # both steps alike, or one of none
        x, y, k = drawn.uniform(-9, 9), drawn.uniform(-9, 9), drawn.choice((0, 1, -1, drawn.uniform(-2, 2)))
        steps = drawn.choice(([x, y, k * x, k * y], [k * x, k * y, x, y]))
    elif kind < 8:
        steps = [drawn.choice((-1, 1)) * 2.0 ** drawn.uniform(-40, 30) for _ in range(4)]
    elif kind < 9:
        steps = [drawn.choice((0, 0, 1, -1, 2.0 ** -20, drawn.randrange(-5, 6))) for _ in range(4)]
    elif kind < 10:
        steps = [0.0] * 4
    else:
        # at the limits, in images, alone or beside small ones
        most = [drawn.choice((-16384.0, 16384 - 2.0 ** -32, -16383.5, 16000.0)) for _ in range(4)]
        return [it if drawn.random() < 0.3 else it * drawn.choice((0, drawn.random(), 2.0 ** -drawn.randrange(4, 50)))
                for it in most]
    steps = [steps[0] / w, steps[1] / h, steps[2] / w, steps[3] / h]
    return [max(-16384.0, min(16384 - 2.0 ** -32, it)) for it in steps]


# ---- the comparison

def lists(values):
    return values.tolist() if hasattr(values, "tolist") else values


class Comparison:
    """Compares lookups in one picture, `TOGETHER` in a call, and keeps how many were compared and which differ."""

    def __init__(self, textures, file, picture):
        self.textures, self.file, self.picture = textures, file, picture
        self.drawn = random.Random(picture.name)
        self.compared, self.wrong, self.widest = 0, [], 0

    def options(self):
        nch = self.drawn.choice((1, self.picture.channels, self.drawn.randrange(1, 9)))
        return (self.drawn.randrange(4), self.drawn.randrange(4)), nch

    def compare(self, what, numbers, got, wanted):
        self.compared += 1
        if got != wanted:
            self.wrong.append(f"{self.picture.name}, {what}, {numbers}: {got}, wanted {wanted}")

    def points(self):
        wraps, nch = self.options()
        kind, at_level = self.drawn.randrange(3), level(self.drawn, self.picture)
        numbers = [places(self.drawn, self.picture, 32768) for _ in range(TOGETHER)]
        got = lists(self.textures.texture(self.file, *zip(*numbers), at_level, *wraps, kind, nch))
        for (s, t), found in zip(numbers, got):
            wanted = model.point(self.picture, model.fine(s), model.fine(t), model.lod_from(at_level), kind, wraps, nch)
            self.compare(f"level {at_level}, filter {kind}, wraps {wraps}", (s, t), found, wanted)

    def footprints(self):
        wraps, nch = self.options()
        max_probes = self.drawn.choice((1, 8, 16, 16, 16, 32, self.drawn.randrange(1, 33)))
        numbers = [[*places(self.drawn, self.picture, 16384), *derivatives(self.drawn, self.picture)]
                   for _ in range(TOGETHER)]
        got = lists(self.textures.texture_footprint(self.file, *zip(*numbers), max_probes, *wraps, nch))
        for row, found in zip(numbers, got):
            s, t, *rest = map(model.fine, row)
            self.widest = max(self.widest, model.plan(*self.picture.sizes[0], *rest, max_probes)[1])
            wanted = model.footprint(self.picture, s, t, rest, max_probes, wraps, nch)
            self.compare(f"max_probes {max_probes}, wraps {wraps}", row, found, wanted)


def compared(folder, picture, lookups, footprints):
    """How many were compared, which differ, and the most probes; of one picture, which is written first."""
    sys.path.insert(0, str(TOP / "python"))
    import texcache
    room = folder / picture.name[:-4]
    room.mkdir()
    picture.write(room)
    with texcache.Cache(room) as cache, cache.new_pass() as textures:
        found = Comparison(textures, cache.find(picture.name), picture)
        while found.compared < lookups:
            found.points()
        at_places = found.compared
        while found.compared < at_places + footprints:
            found.footprints()
    shutil.rmtree(room)
    return at_places, found.compared - at_places, found.wrong, 2 * found.widest + 1


def worked(folder):
    """The footprints that are worked out by hand and differ."""
    sys.path.insert(0, str(TOP / "python"))
    import texcache
    picture = Picture("worked.tif", 4, 4, 1, 8, 16)
    (folder / "worked").mkdir()
    picture.kept[0, 0, 0] = bytes(16 * y + x & 255 for y in range(16) for x in range(16))
    picture.sizes = picture.sizes[:1]
    picture.write(folder / "worked")
    with texcache.Cache(folder / "worked") as cache, cache.new_pass() as textures:
        file = cache.find(picture.name)
        for numbers, wanted in WORKED:
            got = textures.texture_footprint(file, *numbers, 16, texcache.CLAMP, texcache.CLAMP, 1)
            if got != [wanted]:
                yield f"worked out by hand, {numbers}: {got}, wanted {wanted}"


def add_arguments(parser):
    parser.add_argument("--library", type=Path, metavar="FILE",
                        help="the library; else the proved one if it is up to date, or an unproved build")
    parser.add_argument("--full", action="store_true", help="all lookups; this takes some minutes")
    Skips.add_argument(parser)


def run(args):
    skips = Skips(args)
    if skips.lacks(None if shutil.which("cc") else "a C compiler", "fine"):
        return 1 if skips.failed else 0
    library = archive_of(args.library)
    lookups, footprints = (FULL_LOOKUPS, FULL_FOOTPRINTS) if args.full else (LOOKUPS, FOOTPRINTS)
    with tempfile.TemporaryDirectory() as made:
        made, every = Path(made), list(pictures())
        os.environ["TEXCACHE_LIBRARY"] = str(made / "libtexcache.so")
        shared(library, made / "libtexcache.so")
        with ProcessPoolExecutor(len(os.sched_getaffinity(0))) as pool:
            each = partial(compared, made, lookups=lookups // len(every), footprints=footprints // len(every))
            found = list(pool.map(each, reversed(every)))
        wrong = [it for _, _, differ, _ in found for it in differ]
        by_hand = list(worked(made))
    print(*wrong[:5], *by_hand, sep="\n", end="\n" if wrong or by_hand else "")
    print(f"fine: {sum(it[0] for it in found)} lookups and {sum(it[1] for it in found)} footprints of up to "
          f"{max(it[3] for it in found)} probes were compared, {len(wrong)} differ; {len(WORKED)} by hand, "
          f"{len(by_hand)} differ")
    return 1 if wrong or by_hand else 0
