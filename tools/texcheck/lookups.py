"""What a lookup answers, by the formulas of docs/FILTERING.md, in whole numbers. The levels are
Levels of tiff.py, and `value(page, x, y, channel)` is the 16-bit value of a texel."""

ONE = 65536


def wrapped(wrap, i, n):
    """The texel, 0 to n - 1, that a wrap takes for index i; None if it is black."""
    if wrap == "black":
        return i if 0 <= i < n else None
    if wrap == "clamp":
        return max(0, min(i, n - 1))
    if wrap == "periodic":
        return i % n
    m = -i - 1 if i < 0 else i
    return m % n if m // n % 2 == 0 else n - 1 - m % n


class Lookup:
    """A request `tex S T LOD SWRAP TWRAP FILTER NCH NAME` over the levels of a picture."""

    def __init__(self, levels, value, s, t, lod, swrap, twrap, kind):
        self.levels, self.value = levels, value
        self.s, self.t, self.lod = s, t, lod
        self.swrap, self.twrap, self.kind = swrap, twrap, kind

    def texel(self, level, i, j, channel):
        """The value at two indices; 0 if the wrap is black and the texel is outside."""
        page = self.levels[level]
        x, y = wrapped(self.swrap, i, page.width), wrapped(self.twrap, j, page.height)
        return 0 if x is None or y is None else self.value(page, x, y, channel)

    def bilinear_sum(self, level, channel):
        page = self.levels[level]
        across, down = self.s * page.width - ONE // 2, self.t * page.height - ONE // 2
        i, f = divmod(across, ONE)
        j, g = divmod(down, ONE)
        return (self.texel(level, i, j, channel) * (ONE - f) * (ONE - g)
                + self.texel(level, i + 1, j, channel) * f * (ONE - g)
                + self.texel(level, i, j + 1, channel) * (ONE - f) * g
                + self.texel(level, i + 1, j + 1, channel) * f * g)

    def square(self, level):
        """The four texels around a place, upper row first, without those that a black wrap leaves out."""
        page = self.levels[level]
        i = (self.s * page.width - ONE // 2) // ONE
        j = (self.t * page.height - ONE // 2) // ONE
        for row in (j, j + 1):
            for column in (i, i + 1):
                x, y = wrapped(self.swrap, column, page.width), wrapped(self.twrap, row, page.height)
                if x is not None and y is not None:
                    yield level, x, y

    def visits(self):
        """The texels that it visits, in order, each with its level."""
        last = len(self.levels) - 1
        nearest = min((self.lod + ONE // 2) // ONE, last)
        if self.kind == "trilinear":
            level, q = divmod(min(self.lod, ONE * last), ONE)
            return [*self.square(level), *(self.square(level + 1) if q else ())]
        if self.kind == "bilinear":
            return list(self.square(nearest))
        page = self.levels[nearest]
        x = wrapped(self.swrap, self.s * page.width // ONE, page.width)
        y = wrapped(self.twrap, self.t * page.height // ONE, page.height)
        return [] if x is None or y is None else [(nearest, x, y)]

    def one_level(self, channel):
        """The level of closest and bilinear: the nearest one, and a half is rounded up."""
        level = min((self.lod + ONE // 2) // ONE, len(self.levels) - 1)
        if self.kind == "bilinear":
            return (self.bilinear_sum(level, channel) + 2 ** 31) // 2 ** 32
        page = self.levels[level]
        return self.texel(level, self.s * page.width // ONE, self.t * page.height // ONE, channel)

    def trilinear_sum(self, channel):
        level, q = divmod(min(self.lod, ONE * (len(self.levels) - 1)), ONE)
        both = (ONE - q) * self.bilinear_sum(level, channel)
        return both + q * self.bilinear_sum(level + 1, channel) if q else both

    def trilinear(self, channel):
        return (self.trilinear_sum(channel) + 2 ** 47) // 2 ** 48

    def answer(self, channel):
        return self.trilinear(channel) if self.kind == "trilinear" else self.one_level(channel)


class Footprint:
    """A request `texd S T DSDX DTDX DSDY DTDY SWRAP TWRAP NCH NAME` over the levels of a picture: trilinear
    lookups along the longer of two steps, and their mean."""

    def __init__(self, levels, value, s, t, right, below, swrap, twrap):
        across, down = (max(abs(ds) * levels[0].width, abs(dt) * levels[0].height) for ds, dt in (right, below))
        ds, dt = right if across >= down else below
        longer, shorter = max(across, down), max(min(across, down), ONE)
        n = min(8, max(1, -(-longer // shorter)))
        part = max(ONE, -(-longer // n))
        level = (part // ONE).bit_length() - 1
        lod = ONE * level + (part - (ONE << level) >> level)
        places = [(s + (2 * j + 1 - n) * ds // (2 * n), t + (2 * j + 1 - n) * dt // (2 * n)) for j in range(n)]
        self.probes = [Lookup(levels, value, *place, lod, swrap, twrap, "trilinear") for place in places]

    def visits(self):
        """The texels that its probes visit, probe 0 first."""
        return [it for probe in self.probes for it in probe.visits()]

    def answer(self, channel):
        n = len(self.probes)
        return (sum(it.trilinear_sum(channel) for it in self.probes) + n * 2 ** 47) // (n * 2 ** 48)
