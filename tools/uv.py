#!/usr/bin/env python3
"""Turns texture coordinates as renderers have them into the numbers of a request.

    python3 tools/uv.py U V                                    # S and T
    python3 tools/uv.py U V --size W H --dx DUDX DVDX --dy DUDY DVDY    # and the LOD, and a `texd`
    python3 tools/uv.py --value 40000                          # a value as a float from 0 to 1

U and V are fractions of the image: U from its left edge, V from its upper edge down. With --up V is measured from
the lower edge up, as many renderers have it. S = round(65536 U) and T = round(65536 V). LOD is in 1/65536 of a
level: 65536 * log2(p), if a pixel is p texels of level 0 long, and 0 if p is less than 1. W and H are the width and
height of level 0, and the derivatives are per pixel.
"""
import argparse
import math

ONE = 65536
LEAST, MOST = -2 ** 31, 2 ** 31 - 1


def coordinate(value):
    """S of U, or T of V, in 1/65536."""
    found = math.floor(value * ONE + 0.5)
    if not LEAST <= found <= MOST:
        raise ValueError(f"{value} is out of range: -32768 to 32768")
    return found


def lod(size, right, below):
    """The LOD of a pixel whose two sides have these derivatives."""
    longest = max(math.hypot(du * size[0], dv * size[1]) for du, dv in (right, below))
    return 0 if longest <= 1 else min(2 ** 32 - 1, round(ONE * math.log2(longest)))


def texd(s, t, right, below, wraps, channels, name):
    """The request along the pixel's footprint."""
    steps = [coordinate(it) for it in (*right, *below)]
    return " ".join(map(str, ["texd", s, t, *steps, *wraps, channels, name]))


def main():
    asked = argparse.ArgumentParser(description=__doc__, formatter_class=argparse.RawDescriptionHelpFormatter)
    asked.add_argument("place", nargs="*", type=float, metavar="U V")
    asked.add_argument("--up", action="store_true")
    asked.add_argument("--size", nargs=2, type=int, metavar=("W", "H"))
    asked.add_argument("--dx", nargs=2, type=float, default=(0, 0), metavar=("DUDX", "DVDX"))
    asked.add_argument("--dy", nargs=2, type=float, default=(0, 0), metavar=("DUDY", "DVDY"))
    asked.add_argument("--wrap", nargs=2, default=("periodic", "periodic"), metavar=("SWRAP", "TWRAP"))
    asked.add_argument("--channels", type=int, default=3)
    asked.add_argument("--name", default="NAME")
    asked.add_argument("--value", type=int)
    words = asked.parse_args()
    if words.value is not None:
        print(f"{words.value / 65535:.6f}")
        return
    if len(words.place) != 2:
        asked.error("U and V are missing")
    u, v = words.place
    s, t = coordinate(u), coordinate(1 - v if words.up else v)
    right, below = words.dx, words.dy
    if words.up:
        right, below = ((du, -dv) for du, dv in (right, below))
    wraps, channels, name = words.wrap, words.channels, words.name
    level = lod(words.size, right, below) if words.size else 0
    print(" ".join(map(str, ["tex", s, t, level, *wraps, "trilinear", channels, name])))
    if words.size:
        print(texd(s, t, right, below, wraps, channels, name))


if __name__ == "__main__":
    main()
