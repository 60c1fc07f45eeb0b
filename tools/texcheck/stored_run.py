"""The files of texcache's stored run, its requests, and the expected answers.

The requests above the line MADE in crates/texcache/stdin are written by hand. The requests below it come from
file_rows.py, from the regions below and from many_lookups.py. The answers are computed by the formulas of the images,
of docs/FORMAT.md and of docs/FILTERING.md, and not by the program. Some answers were also worked out by hand (a line of
stdin says which), and so were the levels and faults of file_rows.py; many_lookups.py computes its answers a second
time. With --write crates/texcache/data, stdin and stdout are written; without it they are compared.
"""
import struct
import sys

from texcheck import file_rows, many_lookups
from texcheck.common import TOP
from texcheck.counts import closing
from texcheck.reference import FIELDS, GENERATION, keys, on_pages
from texcheck.tiff import BIG, BLACK_IS_ZERO, LITTLE, LONG, LONG8, RGB, SHORT, WHITE_IS_ZERO, WIDE, Level, tiff

HELP = "the files and answers of texcache's stored run, from formulas"
RUN = TOP / "crates" / "texcache"
# optional fields: PlanarConfiguration and TileByteCounts
SPOKEN = (284, 325)


def grid(x, y):
    return [16 * y + x]


def wall(number):
    side = 1024 >> number
    return Level(side, side, lambda x, y: [20 * number, 20 * number + 1, 20 * number + 2],
                 photometric=RGB, tile=(64, 64))


def lines_of_16_bits(x, y):
    return [1000 * y + 100 * x + 7]


# The pictures, with the order of their bytes.
PICTURES = {
    "A.tif": (LITTLE, [Level(4, 4, grid, rows=4)]),
    "three.tif": (LITTLE, [Level(3, 1, lambda x, y: [(10, 21, 30)[x]], rows=1, offset_type=SHORT)]),
    "low.tif": (LITTLE, [Level(5, 4, lines_of_16_bits, 16, rows=3, offset_type=SHORT, stored=(1, 0))]),
    "high.tif": (BIG, [Level(5, 4, lines_of_16_bits, 16, rows=3, offset_type=SHORT, stored=(1, 0))]),
    "white.tif": (LITTLE, [Level(3, 2, lambda x, y: [20000 * c + 1000 * y + 100 * x + 9 for c in range(3)],
                              16, WHITE_IS_ZERO, rows=1, offset_type=SHORT)]),
    "tall.tif": (LITTLE, [Level(3, 7, lambda x, y: [30 * y + 10 * x + 5], rows=2, offset_type=SHORT)]),
    "W.tif": (LITTLE, [Level(2, 1, lambda x, y: [(10, 250)[x], (20, 60)[x]], 8, WHITE_IS_ZERO, rows=1,
                           offset_type=SHORT)]),
    "pages.tif": (LITTLE, [Level(100, 80, lambda x, y: [7], rows=80)] * 2),
    "B.tif": (BIG, [Level(80, 48, lambda x, y: [20000 * c + 100 * y + x for c in range(3)], 16, RGB,
                          tile=(64, 32), spoken=SPOKEN)]),
    "seam.tif": (LITTLE, [Level(20, 18, lambda x, y: [11 * y + x, 200 - 5 * y - x], 8, WHITE_IS_ZERO,
                             tile=(16, 16))]),
    "wide.tif": (LITTLE, [Level(131072, 1, lambda x, y: [255 - x % 251], rows=1)]),
    "wall.tif": (LITTLE, [wall(number) for number in range(11)]),
    "noise.tif": (BIG, [Level(max(1, 77 >> n), max(1, 33 >> n),
                              lambda x, y, n=n: [(40503 * x + 30011 * y + 20011 * n) * 2654435761 >> 16 & 65535],
                              16, rows=5) for n in range(7)]),
}

# Images whose channels have planes: strips of one row and of several, not in the order of their numbers, the last of
# a plane shorter; tiles with padding; both byte orders; 8 and 16 bits; 2 to 8 channels; WhiteIsZero; and images with
# both planar and chunky levels.
PICTURES |= {
    "planar.tif": (LITTLE, [Level(2, 2, lambda x, y: [2 * y + x + 1 + 10 * c for c in range(3)], photometric=RGB,
                                  rows=1, offset_type=SHORT, planar=True)]),
    "planes.tif": (BIG, [Level(max(1, 13 >> n), max(1, 11 >> n),
                               lambda x, y, n=n: [(9001 * c + 1300 * n + 997 * y + 61 * x) & 65535 for c in range(4)],
                               16, WHITE_IS_ZERO, rows=(3, 2, 5, 1)[n], planar=n != 1) for n in range(4)]),
    "backward.tif": (LITTLE, [Level(5, 7, lambda x, y: [30 * y + 5 * x + c for c in range(2)], rows=2,
                                    stored=range(7, -1, -1), planar=True)]),
    "squares.tif": (LITTLE, [Level(40 >> n, 24 >> n,
                                   lambda x, y, n=n: [(31 * c + 7 * y + 3 * x + 50 * n) & 255 for c in range(8)],
                                   tile=(16, 16), planar=n != 1) for n in range(3)]),
    "shorts.tif": (BIG, [Level(37, 19, lambda x, y: [20000 * c + 1000 * y + 17 * x + 3 for c in range(3)], 16, RGB,
                               tile=(32, 16), planar=True)]),
}

# Images with wide offsets: both byte orders, 8 and 16 bits, strips and tiles, several levels, planes on some levels.
# Offsets and numbers are SHORT, LONG and LONG8. Up to four SHORT, two LONG or one LONG8 are in their entries; more are
# after the directory.
PICTURES |= {
    "big.tif": (LITTLE, [Level(4, 4, grid, rows=4, offset_type=LONG8, types={279: LONG})], WIDE[LITTLE]),
    "far.tif": (BIG, [Level(max(1, 21 >> n), max(1, 18 >> n),
                            lambda x, y, n=n: [(7001 * c + 900 * n + 211 * y + 37 * x) & 65535 for c in range(3)],
                            16, WHITE_IS_ZERO, rows=(5, 4, 3, 2, 1)[n], offset_type=LONG8, planar=n in (1, 3),
                            stored=range(8, -1, -1) if n == 1 else None, types={278: LONG8})
                      for n in range(5)], WIDE[BIG]),
    "fields.tif": (LITTLE, [Level(33 >> n, 20 >> n,
                                  lambda x, y, n=n: [(40 * c + 9 * y + 5 * x + 60 * n) & 255 for c in range(4)],
                                  tile=(16, 16), offset_type=(LONG8, LONG, SHORT)[n], spoken=SPOKEN if n == 0 else (), planar=n == 1,
                                  types={256: LONG8, 257: LONG, 322: LONG8, 323: LONG, 277: (SHORT, LONG, LONG8)[n]})
                            for n in range(3)], WIDE[LITTLE]),
    "inside.tif": (BIG, [Level(6, 8, lambda x, y: [1000 * y + 10 * x + 5], 16, rows=2, offset_type=SHORT),
                         Level(3, 4, lambda x, y: [900 * y + 11 * x + 6], 16, rows=2, offset_type=LONG),
                         Level(1, 2, lambda x, y: [800 * y + 7], 16, rows=2, offset_type=LONG8)], WIDE[BIG]),
    "shelf.tif": (BIG, [Level(70, 40, lambda x, y: [3 * y + 2 * x & 255, 250 - 4 * y - x & 255], tile=(32, 16),
                              photometric=WHITE_IS_ZERO, offset_type=LONG, planar=True)], WIDE[BIG]),
}

# And a texture in two tiles, A.tif and the same with greater samples: the first one, and its neighbour one to
# the right and one up.
PICTURES |= {
    "t.1001.tif": (LITTLE, [Level(4, 4, grid, rows=4)]),
    "t.1012.tif": (LITTLE, [Level(4, 4, lambda x, y: [16 * y + x + 100], rows=4)]),
}

# The images of many_lookups.py: every level is stored, with samples without a visible pattern.
PICTURES |= {
    it.name: (BIG, [Level(max(1, it.width >> n), max(1, it.height >> n),
                          lambda x, y, it=it, n=n: [many_lookups.noise(it, n, x, y, c) for c in range(it.channels)],
                          it.depth, tile=(16, 16) if it.width == 64 else None, rows=2) for n in range(it.levels)])
    for it in many_lookups.PICTURES
}

# Files that are another one with some bytes changed, and the fault that this makes.
CHANGED = {
    "loop.tif": ("A.tif", 118, b"\x08", None),
    # its bytes 8 to 15 are the place of its first directory, far behind it
    "v43.tif": ("A.tif", 2, b"\x2b", "4"),
    "v44.tif": ("A.tif", 2, b"\x2c", "3"),
    "long8.tif": ("A.tif", 72, b"\x10", "6 273"),
    "dir.tif": ("A.tif", 4, b"\xff", "4"),
    "tag.tif": ("A.tif", 22, b"\x05", "5 257"),
    "type.tif": ("A.tif", 12, b"\x02", "6 256"),
    "lzw.tif": ("A.tif", 54, b"\x05", "7 259 5"),
    "zero.tif": ("A.tif", 18, b"\0", "8"),
    "nine.tif": ("A.tif", 90, b"\x09", "9"),
    "few.tif": ("A.tif", 102, b"\x02", "11"),
    "end.tif": ("A.tif", 78, b"\x7b", "12 0 0"),
    # each fault of a directory once more: its offset, its count; fields that are missing, that have another type, no
    # value, values outside the file; depth, colour; sides, samples and rows of 0; counts; tiles; blocks
    "front.tif": ("A.tif", 4, b"\x04", "4"),
    "many.tif": ("A.tif", 8, b"\xff\xff", "4"),
    "lacks.tif": ("A.tif", 22, b"\xe8\xfd", "5 257"),
    "tiled.tif": ("A.tif", 94, b"\x42\x01", "5 323"),
    "kind.tif": ("A.tif", 12, b"\x05", "6 256"),
    "void.tif": ("A.tif", 26, b"\0", "6 257"),
    "apart.tif": ("A.tif", 74, b"\xff" * 4, "6 273"),
    "bits.tif": ("A.tif", 42, b"\x04", "7 258 4"),
    "tone.tif": ("A.tif", 66, b"\x03", "7 262 3"),
    "norows.tif": ("A.tif", 90, b"\0", "8"),
    "nobytes.tif": ("A.tif", 102, b"\0", "8"),
    "sixty.tif": ("B.tif", 103, b"\x3c", "10"),
    "onebyte.tif": ("A.tif", 102, b"\x01", "11"),
    "start.tif": ("A.tif", 78, b"\0", "12 0 0"),
    "beyond.tif": ("A.tif", 78, b"\xff" * 4, "12 0 0"),
    # a second ImageWidth, which is ignored
    "twice.tif": ("A.tif", 106, b"\0\x01", None),
    # with wide offsets: sums and products that 64 bits do not hold, and numbers above 2^32
    "four.tif": ("big.tif", 4, b"\x04", "3"),
    "places.tif": ("big.tif", 8, b"\xf8" + b"\xff" * 7, "4"),
    "entries.tif": ("big.tif", 16, b"\xff" * 8, "4"),
    "entries2.tif": ("big.tif", 23, b"\x40", "4"),
    "values.tif": ("big.tif", 135, b"\x20", "6 273"),
    "values2.tif": ("big.tif", 128, b"\x02" + b"\0" * 7 + b"\xf8" + b"\xff" * 7, "6 273"),
    "depth.tif": ("big.tif", 66, struct.pack("<HQQ", LONG8, 1, 2 ** 32 + 8), "7 258 4294967304"),
    "width.tif": ("big.tif", 26, struct.pack("<HQQ", LONG8, 1, 2 ** 32 + 4), "9"),
    "rows.tif": ("big.tif", 166, struct.pack("<HQQ", LONG8, 1, 2 ** 32 + 1), None),
    "strip.tif": ("big.tif", 136, b"\xf0" + b"\xff" * 7, "12 0 0"),
    "strip2.tif": ("big.tif", 140, b"\x01", "12 0 0"),
    "level.tif": ("big.tif", 204, b"\xff" * 8, None),
}

# Files made by cutting bytes off the end of another file: that file, the number of bytes, and the fault.
CUT = {"short.tif": ("A.tif", 131, "1"), "cut.tif": ("B.tif", 1, "12 0 3"),
       "torn4.tif": ("A.tif", 17, "4"), "last.tif": ("A.tif", 1, "12 0 0"),
       "torn.tif": ("planar.tif", 1, "12 0 5"),
       "head.tif": ("big.tif", 213, "1"), "cut8.tif": ("big.tif", 1, "12 0 0")}

TEXTS = {"note.txt": (b"hello, reader", "2")}

FAULTS = {name: it[-1] for them in (CHANGED, CUT, TEXTS) for name, it in them.items() if it[-1]}
FAULTS |= {it.name: it.fault for it in file_rows.ROWS if it.fault}


def as_level(data, read):
    """A level as a row of file_rows.py has it."""
    def texel(x, y):
        return [file_rows.sample_of(data, read, x, y, c) for c in range(read.channels)]
    return Level(read.width, read.height, texel, read.depth, WHITE_IS_ZERO if read.white else BLACK_IS_ZERO,
                 read.tile, read.rows)


READ = {it.name: [as_level(it.data, level) for level in it.levels] for it in file_rows.ROWS if it.levels}


def files():
    """The bytes of each file."""
    made = {name: tiff(*picture) for name, picture in PICTURES.items()}
    for name, (whole, at, changed, _) in CHANGED.items():
        made[name] = made[whole][:at] + changed + made[whole][at + len(changed):]
    for name, (whole, less, _) in CUT.items():
        made[name] = made[whole][:-less]
    return made | {name: text for name, (text, _) in TEXTS.items()} | {it.name: it.data for it in file_rows.ROWS}


def levels_of(name):
    """The levels that a file stores: they end before the first page that is not half the size of the one before."""
    if name in READ:
        return READ[name]
    whole = CHANGED[name][0] if name in CHANGED else name
    found = PICTURES[whole][1]
    stored = found[:1]
    for level in found[1:]:
        before = stored[-1]
        if (level.width, level.height) != (max(1, before.width // 2), max(1, before.height // 2)):
            break
        stored.append(level)
    return stored


MOST_TEXELS = 2 ** 20

WORKERS = 4


MARK = "<UDIM>"


def meant(request):
    """The request with the name of the UDIM tile in place of <UDIM>, by docs/REQUESTS.md, "UDIM names". None if there
    is no tile at its place."""
    word = request.split(" ", 1)[0]
    if word not in ("tex", "texd") or MARK not in request:
        return request
    _, s, t, *fields, name = request.split(" ", FIELDS[word] + 1)
    (column, s), (row, t) = divmod(int(s), 65536), divmod(int(t), 65536)
    number = 1001 + column + 10 * row
    if not 0 <= column <= 9 or row < 0 or number > 9999:
        return None
    return " ".join([word, str(s), str(t), *fields, name.replace(MARK, str(number), 1)])


def answer(request):
    """The answer to a request; each file is in its first generation."""
    if request == "sync":
        return ["sync"]
    request = meant(request)
    if request is None:
        return ["no such file"]
    word = request.split(" ", 1)[0]
    _, *numbers, name = request.split(" ", FIELDS[word] + 1)
    if not any(name in them for them in (PICTURES, CHANGED, FAULTS, READ)):
        return ["no such file"]
    if word == "pixels" and int(numbers[3]) * int(numbers[4]) > MOST_TEXELS:
        return ["region too large"]
    if name in FAULTS:
        return ["bad file", GENERATION, FAULTS[name]]
    return on_pages(word, numbers, levels_of(name))


MADE = "# From here on the list is made by tools/run_files.py."

# how many values a line has: around 8 and 256, and many
MANY = (7, 8, 9, 255, 256, 257, 600)


def regions_of_many():
    """Lines of few values and of many, of 8 bits and of 16."""
    return [f"pixels 0 1 2 {many} 1 {name}" for name in ("long.tif", "odd.tif", "noise.tif") for many in MANY]


def made_requests():
    """The part of the list that is made."""
    yield from file_rows.requests()
    yield "# as many values as there are"
    yield from regions_of_many()
    yield "# many lookups, and many along footprints"
    yield from (request for request, _ in many_lookups.asked())


def list_text():
    """The list: its part that is written by hand, and that which is made."""
    by_hand = (RUN / "stdin").read_text(encoding="utf-8").split(MADE)[0]
    return by_hand + "".join(line + "\n" for line in [MADE, *made_requests()])


def requests(text):
    """The requests of a list: its lines without those that are passed over."""
    return [line for line in text.splitlines() if line and not line.startswith("#")]


def test_many(answers):
    """The two programs that look up agree on what is asked of both."""
    other = [request for request, values in many_lookups.asked() if answers[request][2:] != values]
    if other:
        sys.exit(f"stored-run: lookups.py and many_lookups.py differ, first at {other[0]}")


def written():
    """What it writes, by the path in the folder of the crate."""
    text = list_text()
    asked = requests(text)
    lines = [answer(it) for it in asked]
    test_many(dict(zip(asked, lines)))
    lines += closing(asked, lines, WORKERS, lambda request, line: keys(meant(request) or "", line, levels_of))
    answers = "".join(" ".join(map(str, it)) + "\n" for it in lines)
    made = {f"data/{name}": data for name, data in files().items()}
    return made | {"stdin": text.encode(), "stdout": answers.encode()}


def add_arguments(parser):
    parser.add_argument("--write", action="store_true", help="write the files, and compare nothing")


def run(args):
    made = written()
    if args.write:
        for path, data in made.items():
            (RUN / path).write_bytes(data)
        return 0
    wrong = [path for path, data in made.items() if not (RUN / path).is_file() or (RUN / path).read_bytes() != data]
    if wrong:
        print(f"stored-run: other bytes than the formulas give: {' '.join(wrong)}", file=sys.stderr)
        return 1
    print(f"stored-run: the {len(requests(made['stdin'].decode()))} answers are those of the formulas")
    return 0
