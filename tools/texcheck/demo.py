"""The images of the demo, and the answers to its lists.

The images and expected.txt are computed by the formulas below and by reference.py. The lines of refused_expected.txt
and bad_expected.txt were worked out by hand from docs/REQUESTS.md. The program is run on all three lists. With --write
the images and expected.txt are written; without it they are compared.
"""
import math
import subprocess
import sys

from texcheck.common import TOP, add_program, program_of
from texcheck.counts import closing
from texcheck.reference import FIELDS, keys, on_pages
from texcheck.tiff import BIG, LITTLE, RGB, WHITE_IS_ZERO, Level, tiff

HELP = "the demo's pictures and answers, from formulas, and its lists"
DEMO = TOP / "demo"
# the number of the fault, and how many workers the program has if none are given
DATA_OUTSIDE, WORKERS = 12, 4


def half(page):
    """The image at half the size: each texel is the rounded mean of four."""
    def texel(x, y):
        right, below = min(2 * x + 1, page.width - 1), min(2 * y + 1, page.height - 1)
        four = [page.texel(i, j) for j in (2 * y, below) for i in (2 * x, right)]
        return [(sum(samples) + 2) // 4 for samples in zip(*four)]
    width, height = max(1, page.width // 2), max(1, page.height // 2)
    return page._replace(width=width, height=height, texel=texel, rows=height)


def chain(page):
    """All levels of an image, each half the size of the one before, down to 1 by 1."""
    pages = [page]
    while pages[-1].width > 1 or pages[-1].height > 1:
        pages.append(half(pages[-1]))
    return pages


def byte(x):
    return max(0, min(255, int(round(x))))


def ball(x, y):
    """A lit ball on a dark ground."""
    u, v = (x - 31.5) / 28, (y - 31.5) / 28
    r = u * u + v * v
    if r > 1:
        return [byte(24 + 0.4 * y)]
    z = math.sqrt(1 - r)
    light = max(0.0, -0.5 * u - 0.6 * v + 0.62 * z)
    return [byte(30 + 215 * light + 10 * light ** 24)]


def hills(x, y):
    """Hills under an evening sky."""
    ridge = 34 + 7 * math.sin(x / 11) + 3 * math.sin(x / 3.7)
    near = 48 + 5 * math.sin(x / 17 + 2)
    if y > near:
        return [byte(40 + y), byte(70 + 0.8 * (y - near)), 38]
    if y > ridge:
        return [byte(70 + 1.5 * (y - ridge)), byte(90 + y - ridge), 110]
    t = y / 40
    return [byte(70 + 170 * t), byte(110 + 60 * t), byte(190 - 60 * t)]


def squares(x, y):
    """A chessboard of 8 by 8."""
    return [235 if (x // 4 + y // 4) % 2 == 0 else 20]


def bricks(x, y):
    """A brick wall, lit from the right."""
    if y % 4 == 3 or (x + y // 4 % 2 * 4) % 8 == 7:
        return [150 + x, 166, 150 + y]
    return [140 + x, 60 + x // 2, 45 + y]


def dunes(x, y):
    """Dunes, as heights of 16 bits."""
    return [round(32000 + 20000 * math.sin(x / 6 + y / 9) + 300 * y)]


def rings(x, y):
    """Rings about the middle, of a colour that turns."""
    r = math.hypot(x - 19.5, y - 11.5)
    return [byte(128 + 120 * math.sin(r)), byte(128 + 120 * math.sin(r / 2)), byte(255 - 9 * r)]


def ink(x, y):
    """A stroke of ink, 255 where it is black, and beside it how wet the paper is."""
    d = abs(y - 8 - 4 * math.sin(x / 4))
    return [byte(255 - 80 * d), byte(10 * x)]


# The pictures by the names of their files, with the order of their bytes.
PICTURES = {
    "ball.tif": (LITTLE, [Level(64, 64, ball, rows=16)]),
    "hills.tif": (LITTLE, [Level(96, 64, hills, photometric=RGB, rows=10)]),
    "squares.tif": (LITTLE, [Level(32, 32, squares, rows=32)]),
    "bricks.tif": (LITTLE, [Level(40, 24, bricks, photometric=RGB, tile=(16, 16), spoken=(325,))]),
    "dunes.tif": (BIG, [Level(32, 20, dunes, depth=16, rows=8)]),
    "rings.tif": (LITTLE, chain(Level(40, 24, rings, photometric=RGB, rows=24))),
    "ink.tif": (LITTLE, [Level(24, 16, ink, photometric=WHITE_IS_ZERO, rows=5, spoken=(338,))]),
}

# A file that is cut short: of this picture all but its last byte.
CUT = {"cut.tif": "dunes.tif"}


def files():
    """The bytes of each file that is made."""
    made = {name: tiff(order, levels, is_mixed=True) for name, (order, levels) in PICTURES.items()}
    return made | {name: made[whole][:-1] for name, whole in CUT.items()}


def requests():
    """The requests of the list: its lines without comments and empty lines."""
    lines = (DEMO / "requests.txt").read_text(encoding="utf-8").splitlines()
    return [line for line in lines if line and not line.startswith("#")]


def answer(request):
    if request == "sync":
        return ["sync"]
    word, *numbers, name = request.split(" ", FIELDS[request.split(" ", 1)[0]] + 1)
    return on_pages(word, numbers, PICTURES[name][1])


def expected():
    """What the program must print for the list."""
    asked = requests()
    lines = [answer(it) for it in asked]
    lines += closing(asked, lines, WORKERS,
                     lambda request, line: keys(request, line, lambda name: PICTURES[name][1]))
    return "".join(" ".join(map(str, it)) + "\n" for it in lines).encode()


# Each list, the file with what is expected of it, further arguments, and the status.
RUNS = [("requests.txt", "expected.txt", [], 0),
        ("refused_requests.txt", "refused_expected.txt", ["--workers", "1"], 1),
        ("bad_requests.txt", "bad_expected.txt", [], 3)]


def add_arguments(parser):
    add_program(parser, "texcache")
    parser.add_argument("--write", action="store_true", help="write the pictures and expected.txt, and run nothing")


def run(args):
    made = files() | {"expected.txt": expected()}
    if args.write:
        for name, data in made.items():
            (DEMO / name).write_bytes(data)
        return 0
    wrong = [f"demo/{name} is not what the formulas give" for name, data in made.items()
             if not (DEMO / name).is_file() or (DEMO / name).read_bytes() != data]
    program = program_of(args, "texcache")
    for given, wanted, words, status in RUNS:
        done = subprocess.run([program, DEMO, *words], input=(DEMO / given).read_bytes(), stdout=subprocess.PIPE,
                              check=False)
        if (done.stdout, done.returncode) != ((DEMO / wanted).read_bytes(), status):
            wrong.append(f"demo/{given}: status {done.returncode}, and not {status}, or other lines than demo/{wanted}")
    print(*wrong, sep="\n", end="\n" if wrong else "", file=sys.stderr)
    if not wrong:
        print(f"demo: {len(made)} files are as the formulas say, and {len(RUNS)} lists are answered as expected")
    return 1 if wrong else 0
