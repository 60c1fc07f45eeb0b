"""The rows of the benchmark: what each asks for, and from which files.

A row has a short and a long list. Its figure is the difference of their times, divided by the number of additional
items in the long list. So it contains neither start-up nor what both lists read.
"""

import random
from typing import NamedTuple

ONE = 65536
SIDE, TILE = 1024, 64
LARGE = {"strip.tif": 8192, "gen.tif": 4096}
MANY = [f"f{number:02}.tif" for number in range(64)]
MANY_SIDE, MANY_TILE = 2304, 64
SMALL = [f"s{number:04}.tif" for number in range(4000)]
SMALL_SIDE = 64
LEVELS = [f"l{number:03}.tif" for number in range(400)]
LEVELS_SIDE = 256
TURN = [f"r{number}.tif" for number in range(8)]
TURN_SIDE = 2048
WIDE_SIZE = (32768, 512)

WRAPS = ("black", "clamp", "periodic", "mirror")
FILTERS = ("closest", "bilinear", "trilinear")


def at(texel, side, shift=18):
    """The coordinate of a place in a texel, `shift` 64ths behind its middle."""
    return ((2 * texel + 1) * 64 + 2 * shift) * ONE // (128 * side)


def tex(s, t, lod, wraps, kind, channels, name):
    return f"tex {s} {t} {lod} {wraps[0]} {wraps[1]} {kind} {channels} {name}"


def scan(kind, lod, passes, rows=48, wide=SIDE):
    """Each texel of some rows of the tiled picture, from left to right, in several passes."""
    one = [tex(at(x, SIDE), at(5 + y * (SIDE // rows), SIDE), lod, ("clamp", "clamp"), kind, 3, "t.tif")
           for y in range(rows) for x in range(wide)]
    return one * passes


def quarters(passes, many=49152):
    """The four quarters of the tiled picture in turn, texel by texel in each."""
    half = SIDE // 2
    one = []
    for i in range(many):
        y, x = divmod(i // 4, half)
        x, y = x + half * (i % 2), 21 * y % half + half * (i // 2 % 2)
        one.append(tex(at(x, SIDE, 0), at(y, SIDE, 0), 0, ("clamp", "clamp"), "bilinear", 3, "t.tif"))
    return one * passes


def anywhere(passes, many=49152):
    """Random places in and about the tiled picture, levels, wraps, filters and channels."""
    dice = random.Random(2)
    one = [tex(dice.randrange(-2 * ONE, 3 * ONE), dice.randrange(-2 * ONE, 3 * ONE), dice.randrange(4 * ONE),
               dice.choices(WRAPS, k=2), dice.choice(FILTERS), dice.randint(1, 3), "t.tif")
           for _ in range(many)]
    return one * passes


def files_in_turn(passes, many=49152):
    """Four files in turn, within one tile of each."""
    middle = range(MANY_TILE // 4, MANY_TILE // 2)
    one = [tex(at(middle[i // 4 % 16], MANY_SIDE), at(middle[i // 64 % 16], MANY_SIDE), 0, ("clamp", "clamp"), "bilinear",
               3, MANY[i % 4]) for i in range(many)]
    return one * passes


def cold_scan(files):
    """One lookup in each tile of the first files, tile by tile."""
    middles = range(MANY_TILE // 2, MANY_SIDE, MANY_TILE)
    return [tex(at(x, MANY_SIDE, 0), at(y, MANY_SIDE, 0), 0, ("clamp", "clamp"), "closest", 3, name)
            for name in MANY[:files] for y in middles for x in middles]


def cold(many):
    """One lookup in each of the tiles of all files, in random order."""
    all_of = cold_scan(len(MANY))
    random.Random(5).shuffle(all_of)
    return all_of[:many]


def far_over_budget(many):
    """Random places in 64 files, which are sixteen times the budget."""
    dice = random.Random(3)
    return [tex(dice.randrange(ONE), dice.randrange(ONE), 0, ("periodic", "periodic"), "bilinear", 3,
                dice.choice(MANY)) for _ in range(many)]


def regions(passes):
    """Regions of 256 by 256 of the tiled picture, side by side."""
    one = [f"pixels 0 {x} {y} 256 256 t.tif" for y in range(0, SIDE, 256) for x in range(0, SIDE, 256)]
    return one * passes


def stripped_scan(rows):
    """Every 16th texel of every 32nd row of the first rows, in a picture of strips: two rows of a cell."""
    side = LARGE["strip.tif"]
    return [tex(at(x, side, 0), at(y, side, 0), 0, ("clamp", "clamp"), "bilinear", 3, "strip.tif")
            for y in range(16, rows, 32) for x in range(8, side, 16)]


def stripped_anywhere(many):
    dice = random.Random(4)
    return [tex(dice.randrange(ONE), dice.randrange(ONE), 0, ("periodic", "periodic"), "bilinear", 3,
                "strip.tif") for _ in range(many)]


def generated(is_all, name="gen.tif"):
    """The size of a picture with one stored level; then a lookup in each cell of its generated levels."""
    found, side = [f"info {name}"], LARGE[name]
    for level in range(1, side.bit_length() if is_all else 1):
        long = side >> level
        middles = range(min(TILE, long) // 2, long, TILE)
        found += [tex(at(x, long, 0), at(y, long, 0), level * ONE, ("clamp", "clamp"), "closest", 3, name)
                  for y in middles for x in middles]
    return found


def in_turn(rows):
    """A lookup in each cell of the first rows of eight stripped pictures, the pictures in turn."""
    middles = range(TILE // 2, TURN_SIDE, TILE)
    return [tex(at(x, TURN_SIDE, 0), at(y, TURN_SIDE, 0), 0, ("clamp", "clamp"), "closest", 3, name)
            for y in range(TILE // 2, rows, TILE) for x in middles for name in TURN]


def wide_scan(rows):
    """A lookup in each cell of the first rows of a picture whose rows of cells have more than 4 MiB."""
    width, height = WIDE_SIZE
    return [tex(at(x, width, 0), at(y, height, 0), 0, ("clamp", "clamp"), "closest", 3, "wide.tif")
            for y in range(TILE // 2, rows, TILE) for x in range(TILE // 2, width, TILE)]


class Row(NamedTuple):
    """The lists of a row. `units` is the number of additional items (lookups, tiles, files) in the long list. Without a
    short list the figure is the whole time of the program."""

    name: str
    title: str
    unit: str
    folder: str
    short: list
    long: list
    units: int
    options: tuple = ()
    workers: tuple = (1, 4)

    def lists(self):
        return [(kind, lines) for kind, lines in (("short", self.short), ("long", self.long)) if lines is not None]


def grown(name, title, unit, folder, short, long, **others):
    return Row(name, title, unit, folder, short, long, len(long) - len(short), **others)


def repeated(name, title, unit, folder, make):
    """A row whose lists are one pass, and six."""
    return grown(name, title, unit, folder, make(1), make(6))


BUDGET = ("--budget", str(64 * 2 ** 20))
STRIPS = ("--autotile", "64")


def all_rows():
    for kind, lod in (("closest", 0), ("bilinear", 0), ("trilinear", ONE // 2)):
        yield repeated(kind, f"warm, in scan order: {kind}", "lookup", "main",
                       lambda passes, kind=kind, lod=lod: scan(kind, lod, passes))
    yield repeated("quarters", "four quarters in turn: bilinear", "lookup", "main", quarters)
    yield repeated("files", "four files in turn: bilinear", "lookup", "many", files_in_turn)
    yield repeated("random", "at random: all wraps, filters, levels", "lookup", "main", anywhere)
    yield grown("cold", "cold tiles at random, budget 64 MB", "tile", "many", cold(8000), cold(72000), options=BUDGET)
    yield grown("budget", "64 files of 1 GB, budget 64 MB, at random", "lookup", "many",
                far_over_budget(8000), far_over_budget(24000), options=BUDGET)
    yield grown("cold_scan", "cold tiles in scan order", "tile", "many", cold_scan(1), cold_scan(12))
    yield grown("regions", "regions of 256 by 256, warm", "region", "main", regions(1), regions(8))
    info = [f"info {name}" for name in SMALL]
    middle = at(SMALL_SIDE // 2, SMALL_SIDE, 0)
    look = [tex(middle, middle, 0, ("clamp", "clamp"), "closest", 3, name) for name in SMALL]
    yield grown("info", "opening 4,000 files: the size", "file", "small", info[:1000], info)
    yield grown("open", "opening 4,000 files: one lookup", "file", "small", look[:1000], look)
    middle = at(LEVELS_SIDE // 2, LEVELS_SIDE, 0)
    levels = [tex(middle, middle, 0, ("clamp", "clamp"), "closest", 3, name) for name in LEVELS]
    yield grown("levels", "opening 400 files of nine levels: one lookup", "file", "levels", levels[:100], levels)
    yield grown("strips", "stripped 8192 by 8192, in scan order", "lookup", "main",
                stripped_scan(1024), stripped_scan(8192), options=STRIPS)
    yield grown("strips_random", "stripped 8192 by 8192, at random", "lookup", "main",
                stripped_anywhere(100), stripped_anywhere(6000), options=STRIPS)
    yield grown("strips_budget", "stripped 8192 by 8192, at random, budget 64 MB", "lookup", "main",
                stripped_anywhere(100), stripped_anywhere(1100), options=(*STRIPS, *BUDGET))
    yield grown("turn", "eight stripped files of 2048 by 2048 in turn", "cell", "turn",
                in_turn(256), in_turn(2048), options=STRIPS)
    yield grown("wide", "stripped 32768 by 512, in scan order", "cell", "turn",
                wide_scan(128), wide_scan(512), options=STRIPS)
    yield Row("generated", "generated levels of 4096 by 4096, all", "picture", "main",
              generated(False), generated(True), 1)
    yield Row("generated_large", "generated levels of 8192 by 8192, all", "picture", "main",
              generated(False, "strip.tif"), generated(True, "strip.tif"), 1)
    yield Row("start", "start-up, an empty folder and list", "start", "none", None, [], 1, workers=(1,))
    yield Row("start_many", "start-up, a folder of 4,000 files", "start", "small", None, [], 1, workers=(1,))


ROWS = {row.name: row for row in all_rows()}
