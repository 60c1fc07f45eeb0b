"""Tests of the tools for people (explain.py, folder_info.py, uv.py, hit_curve.py): what they print for small lists,
files and numbers, worked out by hand."""
import subprocess
import sys
import tempfile
from collections import namedtuple
from pathlib import Path

from texcheck import curve
from texcheck.common import TOP, add_program, program_of
from texcheck.lookups import Lookup
from texcheck.meanings import ending, fault

HELP = "the tools for people: explain.py, folder_info.py, uv.py, hit_curve.py"
TOOLS = TOP / "tools"

# A list, what two workers wrote for it, and its explanation.
LIST, ANSWERS, EXPLAINED = (it.partition("\n")[2] for it in Path(__file__).with_name("explained.txt").read_text(
    encoding="ascii").split("== ")[1:])

# Requests of one worker, what it wrote for each, and what is said of it.
LINES = [
    ("texd 0 0 64 0 0 64 clamp clamp 2 A.tif", "texd 3 65535 26214", "generation 3; as floats: 1.0000, 0.4000"),
    ("info B.tif", "info 1 80 48 3 16 1 7",
     "generation 1; 80 by 48 texels, 3 channels of 16 bits, 7 levels, 1 of them stored"),
    ("hold 0 70 3 B.tif", "held 1 64 0 16 32", "generation 1; the cell is 16 by 32 texels from (64, 0) on"),
    ("drop", "dropped", "the oldest held tile is released"),
    ("drop", "nothing held", "Refused: the worker holds no tile."),
    ("hold 0 0 0 B.tif", "holds full", "Refused: the worker already holds four tiles."),
    ("invalidate B.tif", "invalidated 2", "the file was checked, and answers from older versions end here"),
    ("renew B.tif", "renewed 2", "the file will be read again"),
    ("pixels 9 0 0 1 1 B.tif", "no level 2 7", "Refused: the file has 7 levels, 0 to 6."),
    ("pixels 0 0 0 1025 1024 B.tif", "region too large", "Refused: the region has more than 1048576 texels."),
    ("pixels 0 0 0 1 1 B.tif", "again 2 3",
     "Refused: the file was replaced: version 2 is gone, version 3 is there.\n"
     "    What helps: send the same request again"),
    ("pixels 0 0 0 1 1 wide.tif", "tile too large 1",
     "Refused: a cell of a level needs more than 32 MiB.\n"
     "    What helps: a smaller --autotile, or smaller tiles in the file"),
    ("tex 0 0 0 clamp clamp closest 1 B.tif", "read fault",
     "Refused: the file could not be opened or read, or was replaced twice while it was read."),
    ("stat", "no memory", "Refused: there was not enough memory for this answer."),
]

# Regions of 2^20 texels: a round has four of them, because it has at most 2^22 texels (docs/REQUESTS.md, "Rounds").
GREAT = ["pixels 0 0 0 1024 1024 B.tif"] * 9
ROUNDS = [1, 1, 1, 1, 2, 2, 2, 2, 3]

# The numbers of a fault, and a word that its explanation must contain, by TIFF 6.0 and the register of compressions.
FAULTS = {
    (1,): "header", (2,): "II nor", (3,): "version", (4,): "directory",
    (5, 256): "ImageWidth", (5, 273): "StripOffsets",
    (6, 324): "TileOffsets", (7, 258, 1): "has 1", (7, 259, 2): "CCITT", (7, 259, 5): "LZW", (7, 259, 7): "JPEG",
    (7, 259, 8): "Deflate", (7, 259, 32773): "PackBits", (7, 259, 32946): "Deflate", (7, 262, 3): "palette",
    (7, 262, 5): "CMYK", (7, 262, 6): "YCbCr", (7, 284, 3): "PlanarConfiguration", (7, 339, 2): "signed",
    (7, 339, 3): "floating", (8,): "0", (9,): "131072", (10,): "16", (11,): "fewer", (12, 2, 7): "7 of level 2",
}

# What is said about the only line of a run that answers no request.
ENDINGS = {
    "bad list 3 5": "line 3 of the list: a wrap or a filter has an unknown name",
    "bad list 0 9": "the list has more than 16777216 bytes", "too many files": "the folder has more than 4096 files",
    "bad file 1 7 259 5": None, "sync": None,
}

# Some files of the stored run. 80 by 48 texels of three channels take 2 * 3 * (80 * 48 + 40 * 24 + 20 * 12 + 10 * 6 +
# 5 * 3 + 2 * 1 + 1) bytes.
FILES = {
    "A.tif": "A.tif: 4 by 4, 1 channel of 8 bits, 1 of 3 levels stored, one cell, 42 bytes in the cache",
    "B.tif": "B.tif: 80 by 48, 3 channels of 16 bits, 1 of 7 levels stored, tiles of 64 by 32, 30.0 KiB in the cache",
    "pages.tif": "pages.tif: 100 by 80, 1 channel of 8 bits, 1 of 7 levels stored, strips, 20.8 KiB in the cache",
    "lzw.tif": "lzw.tif: the file is not accepted: Compression is 5, LZW\n"
               "    What helps: tiffcp -c none lzw.tif OUT.tif",
    "cut.tif": "cut.tif: the file is not accepted: strip or tile 3 of level 0 is not completely in the file: the file "
               "was cut short, or its writer left this block out (a sparse file)\n"
               "    What helps: copy the file again, or write it again with the program that made it",
}

# Arguments of uv.py, and what it prints. A pixel of 0.002 by 0.001 over 1024 by 512 texels is 2.048 texels long, whose
# logarithm to base 2 is 1.0342157.
NUMBERS = [
    (["0.25", "0.75"], "tex 16384 49152 0 periodic periodic trilinear 3 NAME"),
    (["0.25", "0.75", "--up", "--channels", "1", "--name", "a b.tif"],
     "tex 16384 16384 0 periodic periodic trilinear 1 a b.tif"),
    (["-0.5", "1.5", "--wrap", "black", "mirror"], "tex -32768 98304 0 black mirror trilinear 3 NAME"),
    (["0.25", "0.75", "--size", "1024", "512", "--dx", "0.002", "0", "--dy", "0", "0.001"],
     "tex 16384 49152 67778 periodic periodic trilinear 3 NAME\ntexd 16384 49152 131 0 0 66 periodic periodic 3 NAME"),
    (["0", "0", "--size", "256", "256", "--dx", "0.001", "0"],
     "tex 0 0 0 periodic periodic trilinear 3 NAME\ntexd 0 0 66 0 0 0 periodic periodic 3 NAME"),
    (["--value", "65535"], "1.000000"), (["--value", "13107"], "0.200000"),
]


def printed(*words):
    return subprocess.run([sys.executable, *map(str, words)], text=True, stdout=subprocess.PIPE, check=False).stdout


def compare(what, found, wanted):
    if found == wanted:
        return 0
    print(f"{what}:\n{found}\nwanted\n{wanted}", file=sys.stderr)
    return 1


def check_folder(program, folder):
    """What folder_info.py says about some files, and hit_curve.py about a list that is run under three budgets."""
    for name in FILES:
        (folder / name).write_bytes((TOP / "crates" / "texcache" / "data" / name).read_bytes())
    found = printed(TOOLS / "folder_info.py", folder, "--program", program)
    wanted = [*(FILES[it] for it in sorted(FILES)), f"All images at once: tools/prepare.py {folder} DEST --convert"]
    wrong = compare("folder_info.py", found, "\n".join(wanted) + "\n")
    (folder / "list").write_text("pixels 0 0 0 80 48 B.tif\n" * 20, encoding="ascii")
    # with one worker, since several may each read what the others read at that moment
    rows = printed(TOOLS / "hit_curve.py", folder, folder / "list", "--program", program, "--workers", "1",
                   "--most", "4", "--svg", folder / "curve.svg").splitlines()
    budgets = [it.split()[0] for it in rows[1:-2]]
    # the region needs four cells each time, and the microcache keeps two
    needs = "80 cells were needed; 0 of them were among the two that their worker had needed last"
    return (wrong + compare("hit_curve.py", budgets, ["4", "2", "1"]) + compare("hit_curve.py", rows[-2], needs)
            + compare("its verdict", rows[-1], "1 MiB is enough; --least tries less")
            + compare("its picture", (folder / "curve.svg").read_text(encoding="utf-8").count("<polyline"), 2))


def check_explained(folder):
    """What explain.py says about each line, and in which round it is."""
    def explained(requests, answers):
        (folder / "asked").write_text("\n".join(requests), encoding="utf-8")
        (folder / "answered").write_text("\n".join([*answers, "worker 0 needs 0 hits 0"]), encoding="utf-8")
        return printed(TOOLS / "explain.py", folder / "asked", folder / "answered")
    wanted = [f"line {k}, round 1, worker 0: {request}\n    {line}\n    {said}\n"
              for k, (request, line, said) in enumerate(LINES, 1)]
    closing = "worker 0 needed 0 cells; 0 of them were among the two that it had needed last\n"
    found = explained([it[0] for it in LINES], [it[1] for it in LINES])
    of_great = explained(GREAT, ["no memory"] * len(GREAT)).splitlines()
    rounds = [int(it.split("round ")[1].split(",")[0]) for it in of_great if it.startswith("line ")]
    wrong = [numbers for numbers, word in FAULTS.items() if word not in fault(list(numbers))[0]]
    return (compare("explain.py", found, "".join(wanted) + closing) + compare("its rounds", rounds, ROUNDS)
            + compare("endings", {it: ending(it) for it in ENDINGS}, ENDINGS)
            + compare("faults whose explanation lacks a word", wrong, []))


def loads(budget):
    """How many cells one worker with one shard reads for the list of docs/pictures/curve.py, by docs/CACHE.md, "The
    microcache" and "The order of eviction". The texture is the demo's hills, in tiles of 16 by 16."""
    levels = [Page(max(1, 96 >> n), max(1, 64 >> n)) for n in range(7)]
    recent, shard, count = [], {}, 0

    def size(key):
        level, across, down = key
        return 6 * min(16, levels[level].width - 16 * across) * min(16, levels[level].height - 16 * down)

    for line in curve.scene():
        _, s, t, lod, swrap, twrap, kind, *_ = line.split(" ")
        for level, x, y in Lookup(levels, None, int(s), int(t), int(lod), swrap, twrap, kind).visits():
            key = level, x // 16, y // 16
            if key in recent:
                recent = [key, *(it for it in recent if it != key)]
                continue
            count += key not in shard
            # last in the order, because it was used last; with one pin more
            shard[key] = shard.pop(key, 0) + 1
            recent.insert(0, key)
            if len(recent) > 2:
                shard[recent.pop()] -= 1
                loose = [it for it, pins in shard.items() if not pins]
                while loose and sum(map(size, loose)) > budget:
                    del shard[loose.pop(0)]
    return count


Page = namedtuple("Page", "width height")


def check_curve(program, folder):
    """How many more reads each budget needs than the largest one: one for each cell that is loaded, except that the
    system itself reads once or twice."""
    (folder / "scene").write_text("".join(f"{it}\n" for it in curve.scene()), encoding="ascii")
    rows = printed(TOOLS / "hit_curve.py", TOP / "demo" / "textures", folder / "scene", "--program", program,
                   *curve.WORDS).splitlines()[1:]
    reads = [int(it.split()[2]) for it in rows[:-2]]
    wanted = [loads(1024 * 2 ** k) for k in range(6, 0, -1)]
    # all 30 cells fit in 64 KiB, but not in 32 KiB
    said = "the reads still fall at 64 KiB; --most tries more"
    return (compare("reads over the budget", [abs(it - reads[0] - (cells - wanted[0])) <= 2
                                              for it, cells in zip(reads, wanted)], [True] * 6)
            + compare("what the curve says", rows[-1], said))


def add_arguments(parser):
    add_program(parser, "texcache")


def run(args):
    program = program_of(args, "texcache")
    wrong = sum(compare(f"uv.py {' '.join(words)}", printed(TOOLS / "uv.py", *words), wanted + "\n")
                for words, wanted in NUMBERS)
    with tempfile.TemporaryDirectory() as room:
        asked, answered = Path(room) / "list", Path(room) / "answers"
        asked.write_text(LIST, encoding="utf-8")
        answered.write_text(ANSWERS, encoding="utf-8")
        wrong += compare("explain.py", printed(TOOLS / "explain.py", asked, answered), EXPLAINED)
        wrong += check_explained(Path(room))
        (Path(room) / "files").mkdir()
        wrong += check_folder(program, Path(room) / "files")
        wrong += check_curve(program, Path(room))
    print(f"user-tools: {wrong} comparisons with what was worked out by hand fail")
    return 1 if wrong else 0
