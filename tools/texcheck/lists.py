"""Runs the programs on valid and invalid lists, lines and arguments. Compares what they print, and their status, with
what was worked out by hand from docs/REQUESTS.md (list_rows.py) or follows from formulas.

The programs run in temporary folders. Tested are each spelling of a request and each cause of an invalid line;
comments, line ends and bytes that are not UTF-8; lists at their limits; each command-line option; UDIM names; the
cells that a worker needs, request by request; and the sample program.
"""
import os
import subprocess
import sys
import tempfile
from concurrent.futures import ThreadPoolExecutor
from pathlib import Path

from texcheck.common import TOP, add_program, program_of
from texcheck.list_rows import BAD_NUMBERS, BAD_WORDS, FAULTY, PARSED, PLAIN, RIGHT, SEVERAL, SPELLED, WRONG
from texcheck.reference import FIELDS, on_pages
from texcheck.tiff import BIG, LITTLE, WHITE_IS_ZERO, Level, tiff
from texcheck.words import name_in

HELP = "valid and invalid lists, lines and arguments"
ALONE = ["--workers", "1"]
MAX_LIST_BYTES, MAX_REQUESTS = 16777216, 1048576


class Checker:
    """Runs programs, and counts the runs that print something unexpected."""

    def __init__(self, texcache, texsample):
        self.texcache, self.texsample = texcache, texsample
        self.runs, self.wrong = 0, 0

    def compare(self, what, ran, wanted, status):
        self.runs += 1
        if (ran.stdout, ran.returncode) != (wanted, status):
            self.wrong += 1
            print(f"{what}: status {ran.returncode}, wanted {status}\n{ran.stdout[:600]!r}\nwanted\n{wanted[:600]!r}",
                  file=sys.stderr)

    def run(self, folder, words, given, wanted, status, what=None):
        """Runs `texcache` in a folder on the bytes of a list."""
        ran = subprocess.run([self.texcache, *words], cwd=folder, input=given, stdout=subprocess.PIPE, check=False)
        self.compare(what or (words, given[:200]), ran, wanted, status)

    def sample(self, words, wanted, status, out=subprocess.PIPE):
        """Runs `texsample`; `out` may be a full device."""
        ran = subprocess.run([self.texsample, *words], stdin=subprocess.DEVNULL, stdout=out, check=False)
        ran.stdout = ran.stdout or b""
        self.compare(words, ran, wanted, status)


def text(lines):
    return "".join(line + "\n" for line in lines).encode()


def closing(lines, needs=0, hits=0):
    """The closing lines of a run with one worker."""
    refusals = ("no ", "bad ", "outside", "region too", "holds full", "nothing", "read fault", "again", "tile too")
    refused = sum(it.startswith(refusals) for it in lines)
    return [f"worker 0 needs {needs} hits {hits}", f"total {len(lines)} refused {refused}"]


def picture(number):
    """An image of 13 by 9 texels with eight channels, different for each number."""
    def texel(x, y):
        return [(40503 * x + 30011 * y + 10007 * c + 20011 * number + 12345) * 2654435761 >> 16 & 65535
                for c in range(8)]
    return Level(13, 9, texel, 16, rows=4)



def held(level, x, y):
    """The answer to a hold on these images, whose levels are one cell each."""
    if level > 3:
        return "no level 1 4"
    width, height = max(1, 13 >> level), max(1, 9 >> level)
    return f"held 1 0 0 {width} {height}" if x < width and y < height else "outside 1"


def answer(line, pictures):
    """The answer to a list of one line, in a folder of images with these names."""
    plain = {"drop": "nothing held", "stat": "stat" + 16 * " 0,0,0,16777216", "sync": "sync",
             "invalidate_all": "invalidated all"}
    if line in plain:
        return plain[line]
    word, name = line.split(" ")[0], name_in(line)
    if name not in pictures:
        return "no such file"
    if word in ("invalidate", "renew"):
        return {"invalidate": "invalidated 1", "renew": "renewed 1"}[word]
    numbers = line.split(" ")[1:]
    if word == "hold":
        return held(*map(int, numbers[:3]))
    if word == "pixels" and int(numbers[3]) * int(numbers[4]) > 2 ** 20:
        return "region too large"
    return " ".join(map(str, on_pages(word, numbers[:FIELDS[word]], [picture(pictures[name])])))


def check_lines(checker, folder):
    """Each valid request, alone, in a folder that has all files that it may name; and lists of several requests."""
    lines = RIGHT + [it for _, it in SPELLED] + [it for _, said in PARSED for it in said.split("\n")]
    names = {name_in(it) for it in lines} - {"", "a\0b"}
    pictures = {name: number for number, name in enumerate(sorted(names))}
    for name, number in pictures.items():
        (folder / name).write_bytes(tiff(BIG, [picture(number)]))
    for line, shortest in [(it, it) for it in RIGHT] + SPELLED:
        wanted = answer(shortest, pictures)
        ran = subprocess.run([checker.texcache, *ALONE, "."], cwd=folder, input=line.encode(), stdout=subprocess.PIPE,
                             check=False)
        first, *_, last = ran.stdout.decode().split("\n")[:-1] or [""]
        refused = closing([wanted])[-1]
        checker.runs += 1
        if (first, last) != (wanted, refused):
            checker.wrong += 1
            print(f"{line}: {first!r}, {last!r}, wanted {wanted!r}, {refused!r}", file=sys.stderr)
    for given, said in PARSED:
        answers = [answer(it, pictures) for it in said.split("\n")[:-1]]
        lines = answers + closing(answers, sum(it.startswith("pixels") for it in answers))
        checker.run(folder, [*ALONE, "."], given, text(lines), int(not lines[-1].endswith("refused 0")))


def check_faults(checker, folder):
    """Each invalid line, alone and in a list, and each invalid list."""
    wrong = [(line, why) for why, lines in WRONG.items() for line in lines] + SEVERAL
    for line, why in wrong:
        checker.run(folder, ["."], line.encode(), f"bad list 1 {why}\n".encode(), 3)
    for given, fault in FAULTY:
        checker.run(folder, ["."], given, f"bad list {fault}\n".encode(), 3)


def check_limits(checker, folder):
    """Lists at their limits: of bytes, and of requests."""
    nothing = text(closing([]))
    most = [(MAX_LIST_BYTES, byte, fault) for byte, fault in ((b"\n", None), (b"#", None), (b"x", "1 1"))]
    more = [(MAX_LIST_BYTES + 1, byte, "0 9") for byte in (b"\n", b"#", b"x", b"\xff")]
    for length, byte, fault in most + more:
        wanted = f"bad list {fault}\n".encode() if fault else nothing
        checker.run(folder, [*ALONE, "."], byte * length, wanted, 3 if fault else 0, f"{length} times {byte}")
    many, lines = b"\ninfo -\n" * MAX_REQUESTS, ["no such file"] * MAX_REQUESTS
    answered = text(lines + closing(lines))
    for end, fault in [(b"", None), (b"#\n\n# sync\n", None), (b"drop", "2097153 8"), (b"\n#\nsync\nx", "2097155 8"),
                       (b"sync \n", "2097153 6"), (b"x\nsync", "2097153 1")]:
        wanted = f"bad list {fault}\n".encode() if fault else answered
        checker.run(folder, [*ALONE, "."], many + end, wanted, 3 if fault else 1, f"many requests, and {end}")


# The words of a run, its folder, and its workers, shards, the bytes of a share, autotile and automip.
OPTIONS = [
    ("--shards=2|--|-x", "-x", 4, 2, 134217728, 64, True),
    ("--shards|2|.", ".", 4, 2, 134217728, 64, True),
    (".|--shards|2", ".", 4, 2, 134217728, 64, True),
    (".|--shards=0000000002", ".", 4, 2, 134217728, 64, True),
    ("--handles=1024|--budget|4294967296|.|--workers|16|--no-automip|--shards=64", ".", 16, 64, 67108864, 64, False),
    ("--no-automip|--workers=1|--autotile|0|--shards|1|--handles|1|--budget|0|x", "x", 1, 1, 0, 0, False),
    ("--autotile=16|.", ".", 4, 16, 16777216, 16, True),
    ("--autotile|4096|.", ".", 4, 16, 16777216, 4096, True),
    ("--slots=0|.", ".", 4, 16, 16777216, 64, True),
    ("--slots|65536|--shards|2|.", ".", 4, 2, 134217728, 64, True),
    *((words, folder, 4, 16, 16777216, 64, True) for words, folder in PLAIN),
]


def check_words(checker, top):
    """Arguments that make a folder whose one image has a given height, and invalid arguments."""
    folders = sorted({it[1] for it in OPTIONS} - {"."} - {"a b.tif/.."})
    (top / "a b.tif").mkdir()
    heights = {".": 20, "a b.tif/..": 20} | {name: 21 + number for number, name in enumerate(folders)}
    for name, height in heights.items():
        (top / name).mkdir(exist_ok=True)
        (top / name / "f.tif").write_bytes(tiff(LITTLE, [Level(70, height, lambda x, y: [x], rows=8)]))
    given = text(["info f.tif", "hold 0 69 0 f.tif", "sync", "stat"])
    for words, folder, workers, shards, share, autotile, automip in OPTIONS:
        height = heights[folder]
        side = autotile or 4096
        left = 69 // side * side
        loads = [f"{int(number == 0)},{int(number == 0)},0,{share}" for number in range(shards)]
        lines = [f"info 1 70 {height} 1 8 1 {7 if automip else 1}",
                 f"held 1 {left} 0 {min(side, 70 - left)} {min(side, height)}", "sync"]
        ran = subprocess.run([checker.texcache, *words.split("|")], cwd=top, input=given, stdout=subprocess.PIPE,
                             check=False)
        checker.runs += 1
        found = ran.stdout.decode().split("\n")[:-1]
        stat, last = sorted(found[3].split(" ")[1:]) if len(found) > 3 else [], found[4:]
        closes = [f"worker {it} needs 0 hits 0" for it in range(workers)] + ["total 4 refused 0"]
        if (found[:3], stat, last, ran.returncode) != (lines, sorted(loads), closes, 0):
            checker.wrong += 1
            print(f"{words}: status {ran.returncode}, {found}, wanted {lines} {loads} {closes}", file=sys.stderr)
    checker.run(top, [], b"sync\n", b"bad words\n", 2)
    for words in BAD_WORDS:
        checker.run(top, words.split("|"), b"sync\n", b"bad words\n", 2)


# A name with the mark of a tile and a place: the name of the tile's file, and the place in it.
TILES = [
    ("t.<UDIM>.tif", 32768, 8192, "t.1001.tif", 32768, 8192),
    ("t.<UDIM>.tif", 98304, 73728, "t.1012.tif", 32768, 8192),
    ("t.<UDIM>.tif", 65536, 0, "t.1002.tif", 0, 0),
    ("t.<UDIM>.tif", 65535, 65535, "t.1001.tif", 65535, 65535),
    ("t.<UDIM>.tif", 655359, 0, "t.1010.tif", 65535, 0),
    ("t.<UDIM>.tif", 0, 65536, "t.1011.tif", 0, 0),
    ("t.<UDIM>.tif", 524288, 58982399, "t.9999.tif", 0, 65535),
    ("t.<UDIM>.tif", 589825, 58916863, "t.9990.tif", 1, 65535),
    ("<UDIM>", 0, 0, "1001", 0, 0),
    ("<UDIM><UDIM>", 0, 0, "1001<UDIM>", 0, 0),
    ("<<UDIM>>", 0, 0, "<1001>", 0, 0),
    ("<UDI<UDIM>M>", 0, 0, "<UDI1001M>", 0, 0),
    ("a b<UDIM>", 131072, 65537, "a b1013", 0, 1),
    ("\u00e4<UDIM>\u00e4", 0, 0, "\u00e41001\u00e4", 0, 0),
    # no mark
    ("t.tif", -1, 0, "t.tif", -1, 0),
    ("t.<udim>.tif", -1, 0, "t.<udim>.tif", -1, 0),
    ("t.<UDIM.tif", 0, 0, "t.<UDIM.tif", 0, 0),
    ("t.UDIM>.tif", 0, 0, "t.UDIM>.tif", 0, 0),
    ("<UDIM", 0, 0, "<UDIM", 0, 0),
]

# Places that lie in no tile.
OUTSIDE = [(-1, 0), (655360, 0), (0, -1), (589824, 58916864), (0, 58982400), (-2147483648, -2147483648),
           (2147483647, 2147483647)]


def check_tiles(checker, folder):
    """The file and the place that a name with the mark of a tile means: every file shows its name."""
    names = sorted({it[3] for it in TILES} | {"t.<UDIM>.tif"})
    shift = {name: 10 * number for number, name in enumerate(names)}
    for name in names:
        level = Level(4, 4, lambda x, y, name=name: [shift[name] + 4 * y + x], 16, rows=4)
        (folder / name).write_bytes(tiff(LITTLE, [level]))

    def asked(name, s, t):
        return f"tex {s} {t} 0 clamp clamp closest 1 {name}"

    for name, s, t, meant, within_s, within_t in TILES:
        x, y = (min(max(it * 4 // 65536, 0), 3) for it in (within_s, within_t))
        lines = [f"tex 1 {shift[meant] + 4 * y + x}"]
        checker.run(folder, [*ALONE, "."], text([asked(name, s, t)]), text(lines + closing(lines, 1)), 0)
    lines = ["no such file"] * len(OUTSIDE)
    given = text(asked("t.<UDIM>.tif", *it) for it in OUTSIDE)
    checker.run(folder, [*ALONE, "."], given, text(lines + closing(lines)), 1)


# Texels of a level of 40 by 20 with cells of 16 by 16, 0, 1, 2 over 3, 4, 5, and how many hits there are then.
# The comment names the cell, and then those that the microcache has, the latest first.
IN_TURN = [
    # one cell again and again
    (0, 0, 0),  # 0: 0
    (15, 15, 1),  # 0: 0
    (0, 0, 2),  # 0: 0
    # two cells in turn
    (16, 0, 2),  # 1: 1 0
    (5, 3, 3),  # 0: 0 1
    (31, 15, 4),  # 1: 1 0
    (15, 0, 5),  # 0: 0 1
    # three cells in turn
    (39, 0, 5),  # 2: 2 0
    (16, 15, 5),  # 1: 1 2
    (0, 15, 5),  # 0: 0 1
    (32, 15, 5),  # 2: 2 0
    (31, 0, 5),  # 1: 1 2
    (0, 0, 5),  # 0: 0 1
    # the one leaves that was not asked for the longest, and not the one that came first
    (17, 1, 6),  # 1: 1 0
    (32, 0, 6),  # 2: 2 1
    (20, 5, 7),  # 1: 1 2
    (1, 1, 7),  # 0: 0 1
    # the edges
    (0, 16, 7),  # 3: 3 0
    (15, 19, 8),  # 3: 3 0
    (39, 19, 8),  # 5: 5 3
    (32, 16, 9),  # 5: 5 3
    (16, 16, 9),  # 4: 4 5
    (31, 19, 10),  # 4: 4 5
    (39, 16, 11),  # 5: 5 4
    (39, 15, 11),  # 2: 2 5
    (32, 19, 12),  # 5: 5 2
    # the rows where a strip ends and the next begins
    (3, 6, 12),  # 0: 0 5
    (3, 7, 13),  # 0: 0 5
    (3, 13, 14),  # 0: 0 5
    (3, 14, 15),  # 0: 0 5
]

# A texel of a picture of 18 by 3, and the values of three channels of it. Texel n has the samples 601 * 2 * n and
# 601 * (2 * n + 1), and 0 is white: the first value is 65535 less the first sample.
WHITE = [
    (0, 0, [65535, 601, 0]), (17, 0, [65535 - 20434, 21035, 0]), (16, 1, [65535 - 40868, 41469, 0]),
    (17, 2, [65535 - 63706, 64307, 0]), (15, 2, [65535 - 61302, 61903, 0]),
]


def place(x, y, width, height):
    """S and T of a closest lookup that answers this texel."""
    return [-(-(2 * it + 1) * 32768 // side) for it, side in ((x, width), (y, height))]


def closest(x, y, width, height, channels, name):
    return " ".join(map(str, ["tex", *place(x, y, width, height), 0, "clamp clamp closest", channels, name]))


def check_cells(checker, folder):
    """The needs and hits after the first request, the first two, and so on: with a budget for all tiles and with none,
    and for two files whose cells have the same numbers."""
    for name, shift in (("a.tif", 0), ("b.tif", 100)):
        gray = Level(40, 20, lambda x, y, shift=shift: [(x + 40 * y + shift) % 251], rows=7)
        (folder / name).write_bytes(tiff(LITTLE, [gray]))
    cut = [*ALONE, "--autotile", "16", "--no-automip", "."]
    requests = [closest(x, y, 40, 20, 1, "a.tif") for x, y, _ in IN_TURN]
    lines = [f"tex 1 {257 * ((x + 40 * y) % 251)}" for x, y, _ in IN_TURN]
    for room in (["--budget", "1048576", "--shards", "4"], ["--budget", "0", "--shards", "1", "--handles", "1"]):
        for count, (_, _, hits) in enumerate(IN_TURN, 1):
            wanted = lines[:count] + closing(lines[:count], count, hits)
            checker.run(folder, [*room, *cut], text(requests[:count]), text(wanted), 0)
    both = [("a.tif", 0, 0, 0, 0), ("b.tif", 0, 0, 100, 0), ("a.tif", 3, 4, 163, 1), ("b.tif", 3, 4, 12, 2)]
    requests = [closest(x, y, 40, 20, 1, name) for name, x, y, _, _ in both]
    lines = [f"tex 1 {257 * sample}" for _, _, _, sample, _ in both]
    for count, (*_, hits) in enumerate(both, 1):
        wanted = lines[:count] + closing(lines[:count], count, hits)
        checker.run(folder, cut, text(requests[:count]), text(wanted), 0)


def check_white(checker, folder):
    """A WhiteIsZero file with two channels of 16 bits, and lookups of more channels than it has."""
    def texel(x, y):
        return [601 * (2 * (x + 18 * y) + c) for c in range(2)]
    (folder / "w.tif").write_bytes(tiff(BIG, [Level(18, 3, texel, 16, WHITE_IS_ZERO, rows=2)]))
    for x, y, values in WHITE:
        for channels in (1, 2, 3):
            lines = [" ".join(map(str, ["tex", 1, *values[:channels]]))]
            given = text([closest(x, y, 18, 3, channels, "w.tif")])
            checker.run(folder, [*ALONE, "--autotile", "16", "."], given, text(lines + closing(lines, 1)), 0)


# The words of the sample program, its status and what it writes. sample.py works the lines out from formulas. The list of the last but one has 16777248 bytes.
SAMPLES = [
    ("0|1", 0, "lines 2 bytes 42 sum 3447\n"),
    ("0000000000|0000000001", 0, "lines 2 bytes 42 sum 3447\n"),
    ("4100|3", 0, "lines 4104 bytes 65595 sum 3670935\n"),
    ("279912|1", 3, ""),
    ("1048576|16", 3, ""),
]


def check_samples(checker):
    """The sample program: invalid arguments, its lines, a list that is too long, and a full output device."""
    for words in BAD_NUMBERS:
        checker.sample(words.split("|"), b"bad words\n", 2)
    for words, status, written in SAMPLES:
        checker.sample(words.split("|"), written.encode(), status)
    with open("/dev/full", "wb") as full:
        checker.sample(["0", "1"], b"", 5, full)
        checker.sample(["0"], b"", 5, full)


# A region on four tiles, a texel of each of two files, and the region's last texel; what they are answered; and the
# words of a run with what closes it.
READ = ["pixels 0 63 31 2 2 B.tif", "pixels 0 3 3 1 1 A.tif", "tex 65535 65535 0 clamp clamp closest 2 B.tif",
        "info A.tif", "pixels 0 64 32 1 1 B.tif"]
ANSWERS = ["pixels 1 3 3163 23163 43163 3164 23164 43164 3263 23263 43263 3264 23264 43264", "pixels 1 1 13107",
           "tex 1 4779 24779", "info 1 4 4 1 8 1 3", "pixels 1 3 3264 23264 43264"]
OF_FOUR = [(5, 1), (1, 0), (1, 0), (0, 0)]
OF_SIXTEEN = [(4, 0), (1, 0), (1, 0), (0, 0), (1, 0)] + [(0, 0)] * 11
CLOSINGS = [
    (["-"], OF_FOUR), (["--shards=2", "--", "-x"], OF_FOUR), (["--workers", "1", "."], [(7, 2)]),
    (["--workers=16", "."], OF_SIXTEEN), (["--budget=0", "--handles", "1024", "--autotile=4096", "."], OF_FOUR),
    (["--budget=0", "--shards=1", "--handles=1", "--slots=0", "."], OF_FOUR),
]


def check_closings(checker, top):
    """The answers are the same for every budget and every number of handles."""
    data = TOP / "crates" / "texcache" / "data"
    for name in ("-", "-x", "."):
        (top / name).mkdir(exist_ok=True)
        for file in ("A.tif", "B.tif"):
            (top / name / file).write_bytes((data / file).read_bytes())
    for words, counts in CLOSINGS:
        closes = [f"worker {it} needs {needs} hits {hits}" for it, (needs, hits) in enumerate(counts)]
        checker.run(top, words, text(READ), text([*ANSWERS, *closes, "total 5 refused 0"]), 0)


def check_huge(checker, folder):
    """A level of 64 MiB is too large for one cell, because a cell has at most 32 MiB; with --autotile 4096 it is two
    cells of 32 MiB."""
    head = tiff(LITTLE, [Level(8192, 1, lambda x, y: [0], rows=4096)])[:122]
    with open(folder / "huge.tif", "wb") as file:
        file.write(head[:30] + (4096).to_bytes(2, "little") + head[32:])
        file.truncate(122 + 8192 * 4096)
    given = text(["info huge.tif", "pixels 0 0 0 1 1 huge.tif"])
    for words, line, needs in [(["--autotile", "0"], "tile too large 1", 0),
                               (["--autotile", "4096"], "pixels 1 1 0", 1), ([], "pixels 1 1 0", 1)]:
        lines = ["info 1 8192 4096 1 8 1 14", line]
        checker.run(folder, [*ALONE, *words, "."], given, text(lines + closing(lines, needs)), 1 - needs)


def in_a_folder(check, checker):
    with tempfile.TemporaryDirectory() as folder:
        check(checker, Path(folder))


def add_arguments(parser):
    add_program(parser, "texcache")
    add_program(parser, "texsample", "--texsample")


def run(args):
    checker = Checker(program_of(args, "texcache"), program_of(args, "texsample", "texsample"))
    checks = [check_lines, check_faults, check_words, check_tiles, check_cells, check_white, check_closings, check_huge,
              check_limits]
    with ThreadPoolExecutor(len(os.sched_getaffinity(0))) as pool:
        list(pool.map(lambda check: in_a_folder(check, checker), checks))
    check_samples(checker)
    print(f"lists: {checker.wrong} of {checker.runs} runs print something other than expected")
    return 1 if checker.wrong else 0
