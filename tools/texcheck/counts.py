"""The closing lines of a run, by docs/REQUESTS.md, "Rounds" and "The closing lines": which cells each worker needs, and
which of them its microcache has. The levels are Levels of tiff.py."""
from collections import namedtuple

MOST_TEXELS, MOST_OF_A_ROUND = 2 ** 20, 2 ** 22
AUTOTILE = 64

Needs = namedtuple("Needs", "needs hits recent", defaults=(0, 0, ()))


def texels(request):
    """How many texels a request asks for; 0 for a region that is too large."""
    word, *fields = request.split(" ")
    asked = int(fields[3]) * int(fields[4]) if word == "pixels" else 0
    return asked if asked <= MOST_TEXELS else 0


def dealt(requests, workers):
    """The worker of each request."""
    place, sum_of_round = 0, 0
    for request in requests:
        if sum_of_round + texels(request) > MOST_OF_A_ROUND:
            place, sum_of_round = 0, 0
        yield place % workers
        place, sum_of_round = place + 1, sum_of_round + texels(request)
        if request == "sync":
            place, sum_of_round = 0, 0


def sides(page):
    """Width and height of its cells: its tiles, or squares if it has strips."""
    return page.tile or (AUTOTILE, AUTOTILE)


def cell(page, x, y):
    """The cell of a texel, by its column and its row."""
    across, down = sides(page)
    return x // across, y // down


def region_cells(page, x, y, w, h):
    """The cells that a region meets on its level, row by row."""
    left, right = max(0, x), min(page.width, x + w)
    top, bottom = max(0, y), min(page.height, y + h)
    if left >= right or top >= bottom:
        return []
    (first, upper), (last, lower) = cell(page, left, top), cell(page, right - 1, bottom - 1)
    return [(i, j) for j in range(upper, lower + 1) for i in range(first, last + 1)]


def asked(needs, key):
    """Counts a cell that is needed. It is a hit if it is one of the latest two."""
    hit = key in needs.recent
    others = [it for it in needs.recent if it != key]
    return Needs(needs.needs + 1, needs.hits + hit, (key, *others)[:2])


def closing(requests, lines, workers, keys):
    """The closing lines of a run with these requests and answers. `keys(request, line)` are the cells that an answer
    needed."""
    counts = [Needs()] * workers
    for request, line, worker in zip(requests, lines, dealt(requests, workers)):
        for key in keys(request, line):
            counts[worker] = asked(counts[worker], key)
    answers = ("tex", "texd", "pixels", "info", "held", "dropped", "invalidated", "renewed", "stat", "sync")
    refused = sum(line[0] not in answers for line in lines)
    of_workers = [["worker", i, "needs", it.needs, "hits", it.hits] for i, it in enumerate(counts)]
    return [*of_workers, ["total", len(lines), "refused", refused]]
