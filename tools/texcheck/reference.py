"""The expected answers to requests, computed from the levels of an image and not by the program: regions, facts and
lookups in whole numbers (docs/FORMAT.md, docs/FILTERING.md, docs/REQUESTS.md). A level is a Level of tiff.py or a
Page of plain_reader.py."""
from functools import cache

from texcheck.counts import cell, region_cells
from texcheck.lookups import Footprint, Lookup
from texcheck.tiff import BLACK_IS_ZERO, WHITE_IS_ZERO

# each file is in the first generation that the program meets
GENERATION = 1
# how many fields a request has between its first word and the name of the file
FIELDS = {"tex": 7, "texd": 9, "pixels": 5, "info": 0}


def samples(page, x, y):
    """The samples of a texel: in WhiteIsZero channel 0 turned round."""
    found = page.texel(x, y)
    if page.photometric == WHITE_IS_ZERO:
        return [2 ** page.depth - 1 - found[0], *found[1:]]
    return found


def values(page, x, y):
    """The 16-bit values of a texel, 0 outside."""
    if not (0 <= x < page.width and 0 <= y < page.height):
        return [0] * len(page.texel(0, 0))
    return [257 * it if page.depth == 8 else it for it in samples(page, x, y)]


def halved(page):
    """The generated level after a page: each sample is the average of four, and a half is rounded up."""
    @cache
    def texel(x, y):
        across = [min(2 * x + i, page.width - 1) for i in range(2)]
        down = [min(2 * y + j, page.height - 1) for j in range(2)]
        four = [samples(page, i, j) for j in down for i in across]
        return [(sum(it) + 2) // 4 for it in zip(*four)]

    return page._replace(width=max(1, page.width // 2), height=max(1, page.height // 2), texel=texel,
                         photometric=BLACK_IS_ZERO)


def with_generated(pages):
    """All levels of an image: if it stores only one, the others, down to 1 by 1, are generated."""
    levels = list(pages)
    while len(pages) == 1 and (levels[-1].width, levels[-1].height) != (1, 1):
        levels.append(halved(levels[-1]))
    return levels


def region(page, x, y, w, h):
    line = [len(page.texel(0, 0))]
    for j in range(y, y + h if w else y):
        for i in range(x, x + w):
            line += values(page, i, j)
    return line


def value(page, x, y, channel):
    """The value of one channel; 0 if the image does not have it."""
    found = values(page, x, y)
    return found[channel] if channel < len(found) else 0


def on_pages(word, numbers, pages):
    """The answer to a request on an image with these pages."""
    levels = with_generated(pages)
    if word == "info":
        page = pages[0]
        facts = [page.width, page.height, len(page.texel(0, 0)), page.depth, len(pages), len(levels)]
        return ["info", GENERATION, *facts]
    if word == "tex":
        s, t, lod = map(int, numbers[:3])
        lookup = Lookup(levels, value, s, t, lod, *numbers[3:6])
        return ["tex", GENERATION, *map(lookup.answer, range(int(numbers[6])))]
    if word == "texd":
        return ["texd", GENERATION, *map(footprint(levels, numbers).answer, range(int(numbers[8])))]
    level, x, y, w, h = map(int, numbers)
    if level >= len(levels):
        return ["no level", GENERATION, len(levels)]
    return ["pixels", GENERATION, *region(levels[level], x, y, w, h)]


def footprint(levels, numbers):
    """The lookup with the fields of a `texd`."""
    s, t, *steps = map(int, numbers[:6])
    return Footprint(levels, value, s, t, steps[:2], steps[2:], *numbers[6:8])


def keys_on(word, numbers, pages, name):
    """The cells that an answer needed, in order."""
    levels = with_generated(pages)
    if word in ("tex", "texd"):
        s, t, lod = map(int, numbers[:3])
        asked = Lookup(levels, value, s, t, lod, *numbers[3:6]) if word == "tex" else footprint(levels, numbers)
        return [(name, level, *cell(levels[level], x, y)) for level, x, y in asked.visits()]
    if word == "pixels":
        level, x, y, w, h = map(int, numbers)
        return [(name, level, *it) for it in region_cells(levels[level], x, y, w, h)]
    return []


def keys(request, line, pages_of):
    """The cells that a request needed. Refusals, and requests other than `tex`, `texd` and `pixels`, need none."""
    if line[0] not in ("tex", "texd", "pixels"):
        return []
    word, rest = request.split(" ", 1)
    *numbers, name = rest.split(" ", FIELDS[word])
    return keys_on(word, numbers, pages_of(name), name)
