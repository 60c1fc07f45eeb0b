#!/usr/bin/env python3
"""Makes textures and scenes for the renderer.

    python3 textures.py board FOLDER                     # board.1001.tif to board.1012.tif, a UDIM set of 2 by 2 tiles
    python3 textures.py many FOLDER                      # many.scene, a floor of 64 textures of 2048 by 2048, 1.07 GB in all
    python3 textures.py many FOLDER --side 256           # the same with small ones
    python3 textures.py near FOLDER                      # near.scene, a wall of 32768 by 32768 texels, seen from very near
    python3 textures.py slope FOLDER                     # slope.scene, fine squares on a slope that rises to the right
"""
import argparse
import colorsys
import sys
from functools import partial
from pathlib import Path

sys.path.insert(0, str(Path(__file__).resolve().parents[2] / "tools"))
from texcheck.tiff import LITTLE, LONG, NARROW, SHORT, laid_out  # noqa: E402

TILE = 64
# digits of 3 by 5 dots
FONT = {"0": ("###", "# #", "# #", "# #", "###"), "1": (" # ", "## ", " # ", " # ", "###"),
        "2": ("###", "  #", "###", "#  ", "###")}


def color(part, value, saturation=0.6):
    return bytes(int(255 * it + 0.5) for it in colorsys.hsv_to_rgb(part, saturation, value))


def fields(number, width, height, offsets, sizes):
    """The fields of a level, by the places and sizes of its tiles."""
    return [(254, LONG, [min(number, 1)]), (256, LONG, [width]), (257, LONG, [height]), (258, SHORT, [8, 8, 8]),
            (259, SHORT, [1]), (262, SHORT, [2]), (277, SHORT, [3]), (322, LONG, [TILE]), (323, LONG, [TILE]),
            (324, LONG, offsets), (325, LONG, sizes)]


# ---- squares of two colors

def tile(one, other, level):
    """The samples of a tile of a level, whose squares have a side of TILE >> level; below a texel they are mixed."""
    square = TILE >> level
    if square == 0:
        return bytes((a + b + 1) // 2 for a, b in zip(one, other)) * (TILE * TILE)
    pair = (one * square + other * square) * TILE
    swapped = pair[3 * square:]
    return b"".join((pair, swapped)[y // square % 2][:3 * TILE] for y in range(TILE))


def write_squares(path, side, one, other):
    """A texture whose level 0 has tiles of two colors in turn."""
    levels, whole = [], (one * (TILE * TILE), other * (TILE * TILE))
    for number in range(side.bit_length()):
        across = max(1, (side >> number) // TILE)
        tiles = [tile(one, other, number)] * across ** 2 if number else [
            whole[(k % across + k // across) % 2] for k in range(across ** 2)]
        levels.append((tiles, None, partial(fields, number, side >> number, side >> number)))
    path.write_bytes(laid_out(LITTLE, NARROW, levels))


def many(folder, side):
    """64 textures on the floor, and the first of them on the walls."""
    names = [f"t{n:02}.tif" for n in range(64)]
    for n, name in enumerate(names):
        write_squares(folder / name, side, color(n / 64, 0.9), color(n / 64, 0.5))
    lines = [f"plane {-6 + 1.5 * (n % 8)} -1 {1 + 3 * (n // 8)}  1.5 0 0  0 0 3  1 1  {name}" for n, name in enumerate(names)]
    lines += ["plane -6 3 1  0 0 24  0 -4 0  9 2.5  t01.tif", "plane 6 3 25  0 0 -24  0 -4 0  9 2.5  t02.tif",
              "plane -6 3 25  12 0 0  0 -4 0  1 1  t03.tif", "ball 0.4 0 6  1  t63.tif"]
    (folder / "many.scene").write_text("\n".join(lines) + "\n")


# ---- images that are kept as rows of colors

def halved(rows):
    """The next level: means of 2 by 2 texels, rounded."""
    def mean(*texels):
        return tuple((sum(it) + len(texels) // 2) // len(texels) for it in zip(*texels))
    return [[mean(rows[y][x], rows[y][x + 1], rows[y + 1][x], rows[y + 1][x + 1]) for x in range(0, len(rows[0]), 2)]
            for y in range(0, len(rows), 2)]


def cut(rows):
    """The tiles of a level. Those at the edge are filled with black."""
    side = len(rows)
    return [b"".join(b"".join(map(bytes, rows[y][left:left + TILE])).ljust(3 * TILE, b"\0") if y < side else bytes(3 * TILE)
                     for y in range(top, top + TILE))
            for top in range(0, side, TILE) for left in range(0, side, TILE)]


def write_image(path, rows):
    """A square texture whose side is a power of 2, with all levels."""
    levels = []
    while True:
        levels.append((cut(rows), None, partial(fields, len(levels), len(rows), len(rows))))
        if len(rows) == 1:
            break
        rows = halved(rows)
    path.write_bytes(laid_out(LITTLE, NARROW, levels))


def board(folder):
    """Four tiles. Each has a color and shows its number."""
    side, dot = 128, 6
    for k, number in enumerate(("1001", "1002", "1011", "1012")):
        ground, ink, edge = tuple(color(0.07 + 0.25 * k, 0.75)), (255, 255, 255), tuple(color(0.07 + 0.25 * k, 0.45))
        rows = [[edge if min(x, y, side - 1 - x, side - 1 - y) < 4 else ground for x in range(side)] for y in range(side)]
        left, top = (side - 15 * dot) // 2, (side - 5 * dot) // 2
        for n, digit in enumerate(number):
            for y in range(5 * dot):
                for x in range(3 * dot):
                    if FONT[digit][y // dot][x // dot] == "#":
                        rows[top + y][left + 4 * dot * n + x] = ink
        write_image(folder / f"board.{number}.tif", rows)


def slope(folder):
    """Fine squares, on a slope that rises to the right."""
    side, dark, bright = 256, (40, 60, 110), (250, 240, 215)
    write_image(folder / "fine.tif", [[bright if (x // 8 + y // 8) % 2 else dark for x in range(side)] for y in range(side)])
    (folder / "slope.scene").write_text("plane -8 -9 0  16 16 0  0 0 60  8 20  fine.tif\n")


def near(folder):
    """A wall of 32768 by 32768 texels in one level. Its tiles are all the same bytes, so the file has only 2 MB."""
    side, across = 32768, 32768 // TILE
    drawn = [[(60 + 29 * x * y % 180, 80 + 37 * (x + y) % 140, 70 + 53 * (x ^ y) % 150) for x in range(TILE)] for y in range(TILE)]

    def shared(offsets, sizes):
        return fields(0, side, side, offsets * across ** 2, sizes * across ** 2)

    (folder / "wall.tif").write_bytes(laid_out(LITTLE, NARROW, [(cut(drawn), None, shared)]))
    # at a distance of 1 a texel is 0.07 wide, some 40 pixels
    (folder / "near.scene").write_text("plane -1200 1200 -149  2400 0 300  0 -2400 0  1 1  wall.tif\n")


def main():
    asked = argparse.ArgumentParser(description=__doc__, formatter_class=argparse.RawDescriptionHelpFormatter)
    asked.add_argument("what", choices=["board", "many", "near", "slope"])
    asked.add_argument("folder", type=Path)
    asked.add_argument("--side", type=int, default=2048, help="of the textures of `many`, a power of 2")
    words = asked.parse_args()
    words.folder.mkdir(parents=True, exist_ok=True)
    if words.what == "many":
        many(words.folder, words.side)
    else:
        {"board": board, "near": near, "slope": slope}[words.what](words.folder)


if __name__ == "__main__":
    main()
