"""The list of requests that the sample program makes from a number, and the line that it prints, from formulas.

The list follows docs/REQUESTS.md, "The sample program". The images are described in crates/tex_world/README.md,
reference.py computes the values, and docs/REQUESTS.md says what needs and hits are. Nothing is shared with the program.
"""
from functools import cache

from texcheck.counts import cell, closing
from texcheck.lookups import Lookup
from texcheck.reference import value, with_generated
from texcheck.tiff import BLACK_IS_ZERO, RGB, Level

HELP = "the list of the sample program, and its line, from formulas"
WRAPS = ["black", "clamp", "periodic", "mirror"]
FILTERS = ["closest", "bilinear", "trilinear"]


def draws():
    """The drawn numbers, one after the other."""
    state = 1
    while True:
        state = (state * 1103515245 + 12345) % 2147483648
        yield state // 256


def requests(count):
    """The lines of a number of requests."""
    drawn = draws()
    for number in range(count):
        if number % 4096 == 4095:
            yield "sync"
            continue
        s = next(drawn) % 131072 - 32768
        t = next(drawn) % 131072 - 32768
        lod = next(drawn) % 524288
        swrap = WRAPS[next(drawn) % 4]
        twrap = WRAPS[next(drawn) % 4]
        kind = FILTERS[next(drawn) % 3]
        nch = 1 + next(drawn) % 4
        file = next(drawn) % 8
        yield f"tex {s} {t} {lod} {swrap} {twrap} {kind} {nch} sample{file}.tif"


@cache
def levels(n):
    """The levels of a sample file."""
    if n % 2:
        def texel(x, y):
            return [(x * y + 257 * n) % 65536]
    else:
        def texel(x, y):
            return [(7 * x + 13 * y + 29 * c + n) % 256 for c in range(3)]
    kind = (16, BLACK_IS_ZERO) if n % 2 else (8, RGB)
    return with_generated([Level(256 + 32 * n, 192, texel, *kind)])


def lookup(request):
    """The number of the file that a lookup asks, the lookup, and how many channels it asks for."""
    _, s, t, lod, swrap, twrap, kind, channels, name = request.split()
    n = int(name[6])
    return n, Lookup(levels(n), value, int(s), int(t), int(lod), swrap, twrap, kind), int(channels)


def answer(request):
    if request == "sync":
        return ["sync"]
    _, asked, channels = lookup(request)
    return ["tex", 1, *map(asked.answer, range(channels))]


def keys(request, _line):
    """The cells that a request needs."""
    if request == "sync":
        return []
    n, asked, _ = lookup(request)
    return [(n, level, *cell(levels(n)[level], x, y)) for level, x, y in asked.visits()]


def answers(count, workers):
    """The answers to the made list, and the closing lines."""
    asked = list(requests(count))
    lines = [answer(it) for it in asked]
    return [" ".join(map(str, it)) for it in lines + closing(asked, lines, workers, keys)]


def add_arguments(parser):
    parser.add_argument("count", type=int, metavar="N", help="how many requests")
    parser.add_argument("workers", type=int, nargs="?", default=1, metavar="WORKERS")
    parser.add_argument("--list", action="store_true", help="print the list, and not the line")
    parser.add_argument("--bytes", action="store_true", help="print how many bytes the list has")
    parser.add_argument("--answers", action="store_true", help="print the answers and the closing lines")


def run(args):
    if args.list or args.bytes:
        text = "".join(f"{it}\n" for it in requests(args.count))
        print(len(text) if args.bytes else text, end="\n" if args.bytes else "")
        return 0
    lines = [f"{it}\n" for it in answers(args.count, args.workers)]
    text = "".join(lines)
    print(text if args.answers else f"lines {len(lines)} bytes {len(text)} sum {sum(text.encode())}\n", end="")
    return 0
