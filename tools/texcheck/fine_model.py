"""Lookups at fine coordinates and over elliptical footprints, in whole numbers: what docs/FILTERING.md defines.

It is written from the definitions alone. It shares nothing with the library, with lookups.py or with many_lookups.py, on
purpose: `tools/check fine` compares it with the library. Coordinates and derivatives are in 1/2^32 of the image, LOD
is in 1/65536 of a level. A picture has `sizes`, the width and height of each level, and `value(level, x, y)`, the 16-bit
values of the channels of a texel.
"""
from math import floor, isqrt

UNIT = 65536
FINE = 2.0 ** 32
BLACK, CLAMP, PERIODIC, MIRROR = range(4)
CLOSEST, BILINEAR, TRILINEAR = range(3)


def fine(value):
    """A coordinate or a derivative, from a float."""
    return floor(FINE * value + 0.5)


def lod_from(level):
    """The LOD of a level that is given as a float."""
    return max(0, floor(65536.0 * level + 0.5))


def wrapped(wrap, i, n):
    """The texel that index i means beside n texels, or None."""
    if 0 <= i < n:
        return i
    if wrap == BLACK:
        return None
    if wrap == CLAMP:
        return 0 if i < 0 else n - 1
    if wrap == PERIODIC:
        return i % n
    m = i % (2 * n)
    return m if m < n else 2 * n - 1 - m


def from_first_edge(s, n):
    """The distance from the edge of texel 0, in 1/65536 of a texel."""
    return s * n >> 16


def texel(picture, level, wraps, i, j):
    """The values at two indices, None if a black wrap leaves the texel out."""
    w, h = picture.sizes[level]
    x, y = wrapped(wraps[0], i, w), wrapped(wraps[1], j, h)
    return None if x is None or y is None else picture.value(level, x, y)


def bilinear_sums(picture, level, wraps, s, t, nch):
    w, h = picture.sizes[level]
    u, v = from_first_edge(s, w) - 32768, from_first_edge(t, h) - 32768
    i, f, j, g = u >> 16, u & 65535, v >> 16, v & 65535
    sums = [0] * nch
    for column, row, weight in ((i, j, (UNIT - f) * (UNIT - g)), (i + 1, j, f * (UNIT - g)),
                                (i, j + 1, (UNIT - f) * g), (i + 1, j + 1, f * g)):
        for c, value in enumerate((texel(picture, level, wraps, column, row) or ())[:nch]):
            sums[c] += weight * value
    return sums


def trilinear_sums(picture, lod, wraps, s, t, nch):
    level, q = divmod(min(lod, UNIT * (len(picture.sizes) - 1)), UNIT)
    sums = [(UNIT - q) * it for it in bilinear_sums(picture, level, wraps, s, t, nch)]
    if q:
        sums = [a + q * b for a, b in zip(sums, bilinear_sums(picture, level + 1, wraps, s, t, nch))]
    return sums


def point(picture, s, t, lod, kind, wraps, nch):
    """The values of a lookup at a place."""
    if kind == TRILINEAR:
        return [it + 2 ** 47 >> 48 for it in trilinear_sums(picture, lod, wraps, s, t, nch)]
    level = min(lod + 32768 >> 16, len(picture.sizes) - 1)
    if kind == BILINEAR:
        return [it + 2 ** 31 >> 32 for it in bilinear_sums(picture, level, wraps, s, t, nch)]
    w, h = picture.sizes[level]
    found = texel(picture, level, wraps, from_first_edge(s, w) >> 16, from_first_edge(t, h) >> 16)
    return ([*(found or ()), *[0] * 8])[:nch]


def lod_of(length):
    """The LOD of a length in 1/65536 of a texel of level 0, at least a texel."""
    k = (length // UNIT).bit_length() - 1
    return UNIT * k + (length - UNIT * 2 ** k) // 2 ** k


def plan(w, h, dsdx, dtdx, dsdy, dtdy, max_probes):
    """The LOD of a footprint, how many probes there are on each side, the step from one to the next, and the weights."""
    arm = (max_probes - 1) // 2
    ux, vx, uy, vy = dsdx * w >> 16, dtdx * h >> 16, dsdy * w >> 16, dtdy * h >> 16
    k = 0
    while not all(-2 ** 29 <= it >> k < 2 ** 29 for it in (ux, vx, uy, vy)):
        k += 1
    ux, vx, uy, vy = ux >> k, vx >> k, uy >> k, vy >> k
    e, f, g, o = ux + vy, ux - vy, vx + uy, vx - uy
    q, r = isqrt(e * e + o * o), isqrt(f * f + g * g)
    major, minor = max((q + r << k) >> 1, UNIT), (abs(q - r) << k) >> 1
    step = max(minor, UNIT, -(-24 * major // (32 * arm + 27)))
    lod = lod_of(step)
    alone = lod, 0, 0, 0, [1]
    reach = 1024 * (24 * major - 11 * step) // step
    n = reach + 16383 >> 15
    if step >= 2 ** 33 or n <= 0:
        return alone

    def part(x):
        """The part of the bell from the middle to x, in 1/32768 of a step."""
        x = min(x, reach)
        return 3 * reach * reach * x - x ** 3

    parts = [2 * part(16384), *(part((2 * j + 1) * 16384) - part((2 * j - 1) * 16384) for j in range(1, n + 1))]
    cut = (4 * reach ** 3).bit_length() - 16
    weights = [it >> cut for it in parts]
    if weights[n] == 0:
        n -= 1
    if n == 0:
        return alone
    c, d, m = e * f - o * g, e * g + f * o, q * r
    x, y = shortened(*((c + m, d) if c >= 0 else (d, m - c)))
    long = isqrt(x * x + y * y)
    ds, dt = 65536 * (step * x // long) // w, 65536 * (step * y // long) // h
    if max(abs(ds), abs(dt)) > 2 ** 41:
        return alone
    return lod, n, ds, dt, [weights[abs(j)] for j in range(-n, n + 1)]


def shortened(x, y):
    """Both without their last digits: by the least count for which the greater one is below 2^29."""
    z = 0
    while max(abs(x), abs(y)) >> z >= 2 ** 29:
        z += 1
    return x >> z, y >> z


def probes(picture, s, t, ds, dt, lod, weights, wraps, nch):
    """The weighted mean of trilinear probes, the first at (s, t)."""
    sums, whole = [0] * nch, sum(weights)
    for j, weight in enumerate(weights):
        found = trilinear_sums(picture, lod, wraps, s + j * ds, t + j * dt, nch)
        sums = [a + weight * b for a, b in zip(sums, found)]
    return [(it + whole * 2 ** 47) // (whole * 2 ** 48) for it in sums]


def footprint(picture, s, t, derivatives, max_probes, wraps, nch):
    """The values over a footprint."""
    lod, n, ds, dt, weights = plan(*picture.sizes[0], *derivatives, max_probes)
    return probes(picture, s - n * ds, t - n * dt, ds, dt, lod, weights, wraps, nch)
