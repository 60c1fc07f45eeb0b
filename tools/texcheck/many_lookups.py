"""4608 lookups over four images and 2048 lookups along footprints, with the expected answers: requests of the program's
stored run.

It is written from the formulas of docs/FILTERING.md alone, in Python's whole numbers, which are unbounded and whose
division rounds down. It shares nothing with lookups.py, which stored_run.py uses, on purpose: the two must agree.
"""
from collections import namedtuple

HELP = "print many lookups with their answers, from formulas of their own"
UNIT, HALF = 65536, 32768
WRAPS = ["black", "clamp", "periodic", "mirror"]
# A picture's name, sides, number of levels, bits of a sample, and channels.
Picture = namedtuple("Picture", "name width height levels depth channels")
PICTURES = [Picture("dot.tif", 1, 1, 1, 16, 8), Picture("tiny.tif", 5, 3, 3, 16, 8),
            Picture("odd.tif", 64, 33, 7, 16, 8), Picture("long.tif", 131072, 3, 18, 8, 1)]
DRAWN, EACH, ENDS = 256, 16, 128
ALONG, EACH_ALONG = 512, 32
LEAST, MOST, LAST_LOD = -(2**31), 2**31 - 1, 2**32 - 1


def noise(picture, level, x, y, c):
    """The stored sample of a channel of a texel: a number without a visible pattern."""
    place = x * 40503 + y * 30011 + level * 20011 + c * 10007 + 12345
    return place * 2654435761 % 2**32 >> 32 - picture.depth


def value_of(picture, level, x, y, c):
    """The 16-bit value of a channel; 0 if the image does not have it."""
    if c >= picture.channels:
        return 0
    return noise(picture, level, x, y, c) * (257 if picture.depth == 8 else 1)


def wrapped(mode, i, n):
    """The texel that index i means among n, or None."""
    if mode == "black":
        return i if 0 <= i < n else None
    if mode == "clamp":
        return min(max(i, 0), n - 1)
    if mode == "periodic":
        return i % n
    m = i % (2 * n)
    return m if m < n else 2 * n - 1 - m


class Lookup:
    """A lookup in a picture of `levels` levels, each half of the one before."""

    def __init__(self, picture, s, t, lod, swrap, twrap):
        self.picture, self.levels = picture, picture.levels
        self.s, self.t, self.lod, self.swrap, self.twrap = s, t, lod, swrap, twrap

    def size(self, level):
        return max(self.picture.width >> level, 1), max(self.picture.height >> level, 1)

    def value(self, level, i, j, c):
        w, h = self.size(level)
        x, y = wrapped(self.swrap, i, w), wrapped(self.twrap, j, h)
        return 0 if x is None or y is None else value_of(self.picture, level, x, y, c)

    def nearest(self):
        return min(self.levels - 1, (self.lod + HALF) // UNIT)

    def closest(self, c):
        level = self.nearest()
        w, h = self.size(level)
        return self.value(level, self.s * w // UNIT, self.t * h // UNIT, c)

    def bilinear_sum(self, level, c):
        w, h = self.size(level)
        i, f = divmod(self.s * w - HALF, UNIT)
        j, g = divmod(self.t * h - HALF, UNIT)
        return (
            (UNIT - f) * (UNIT - g) * self.value(level, i, j, c)
            + f * (UNIT - g) * self.value(level, i + 1, j, c)
            + (UNIT - f) * g * self.value(level, i, j + 1, c)
            + f * g * self.value(level, i + 1, j + 1, c)
        )

    def bilinear(self, c):
        return (self.bilinear_sum(self.nearest(), c) + 2**31) // 2**32

    def trilinear_sum(self, c):
        lod = min(self.lod, UNIT * (self.levels - 1))
        level, q = divmod(lod, UNIT)
        both = (UNIT - q) * self.bilinear_sum(level, c)
        if q:
            both += q * self.bilinear_sum(level + 1, c)
        return both

    def trilinear(self, c):
        return (self.trilinear_sum(c) + 2**47) // 2**48


def rounded_up(a, b):
    return -(-a // b)


class Footprint:
    """A lookup along a footprint: its trilinear probes."""

    def __init__(self, picture, s, t, right, below, swrap, twrap):
        lengths = [max(abs(ds) * picture.width, abs(dt) * picture.height) for ds, dt in (right, below)]
        ds, dt = right if lengths[0] >= lengths[1] else below
        major, minor = max(lengths), min(lengths)
        n = min(8, max(1, rounded_up(major, max(minor, UNIT))))
        e = max(UNIT, rounded_up(major, n))
        k = 0
        while UNIT * 2 ** (k + 1) <= e:
            k += 1
        lod = UNIT * k + (e - UNIT * 2**k) // 2**k
        self.probes = [
            Lookup(
                picture,
                s + (2 * j + 1 - n) * ds // (2 * n),
                t + (2 * j + 1 - n) * dt // (2 * n),
                lod,
                swrap,
                twrap,
            )
            for j in range(n)
        ]

    def mean(self, c):
        n = len(self.probes)
        return (sum(it.trilinear_sum(c) for it in self.probes) + n * 2**47) // (n * 2**48)


class Draws:
    """Pseudo-random numbers."""

    def __init__(self):
        self.last = 1

    def next(self):
        self.last = (self.last * 1664525 + 1013904223) % 2**32
        return self.last

    def coordinate(self, k):
        return (self.next() - 2**31) >> (7 * (k % 3))

    def number(self, size):
        return (self.next() - 2**31) >> (1 + size % 24)


def lookups():
    """The lookups by each filter, with the number of channels of each: drawn ones, and those with the
    coordinates and the LOD at their ends."""
    draws = Draws()
    for k in range(DRAWN):
        s, t = draws.coordinate(k), draws.coordinate(k)
        lod = draws.next() >> (10 + k % 6)
        yield (s, t, lod), (WRAPS[k // (4 * EACH) % 4], WRAPS[k // EACH % 4]), 1 + k % 8
    for k in range(ENDS):
        place = [LEAST, MOST][k % 2], [LEAST, MOST][k // 2 % 2], [0, LAST_LOD][k // 4 % 2]
        yield place, (WRAPS[k // 32 % 4], WRAPS[k // 8 % 4]), 1 + k % 8


def footprints():
    """The lookups along footprints, with the number of channels of each."""
    draws = Draws()
    for k in range(ALONG):
        place = draws.number(7 * (k % 3)), draws.number(7 * (k % 3))
        right = draws.number(k), draws.number(k // 2)
        below = draws.number(k // 3), draws.number(k // 5)
        wraps = WRAPS[k // (4 * EACH_ALONG) % 4], WRAPS[k // EACH_ALONG % 4]
        yield place, right, below, wraps, 1 + k % 8


FILTERS = {"closest": Lookup.closest, "bilinear": Lookup.bilinear, "trilinear": Lookup.trilinear}


def asked():
    """Each request, and the values of its answer."""
    for picture in PICTURES:
        for word, by in FILTERS.items():
            for place, wraps, channels in lookups():
                lookup = Lookup(picture, *place, *wraps)
                yield (" ".join(map(str, ["tex", *place, *wraps, word, channels, picture.name])),
                       [by(lookup, c) for c in range(channels)])
        for place, right, below, wraps, channels in footprints():
            footprint = Footprint(picture, *place, right, below, *wraps)
            yield (" ".join(map(str, ["texd", *place, *right, *below, *wraps, channels, picture.name])),
                   [footprint.mean(c) for c in range(channels)])



def run(_args):
    for request, values in asked():
        print(request, "->", *values)
    return 0
