"""Tests the renderer of the examples: its arguments, scenes, threads and textures, and its pictures.

The picture has to be the same for any number of threads and any budget, and with a texture that is replaced meanwhile.
Those of examples/renderer are rendered again and compared; two pairs show what lookups on doubles and footprints as
ellipses changed beside the units of requests. With --write the pictures are written.
"""
import re
import shutil
import struct
import sys
import tempfile
import zlib
from pathlib import Path

from texcheck.archive import archive_of
from texcheck.common import TOP, Skips, said

HELP = "the renderer of the examples, and its pictures"
HERE = TOP / "examples" / "renderer"
DEMO = TOP / "demo"
FLAGS = ["-std=c99", "-O2", "-Wall", "-Wextra", "-Wpedantic", "-Werror", f"-I{TOP / 'include'}"]
# the pictures, and the arguments that make them
SMALL, MIDDLE = ["--width", "400", "--height", "250"], ["--width", "480", "--height", "300"]
PICTURES = {
    "along.png": ["room.scene", *MIDDLE],
    "closest.png": ["room.scene", *MIDDLE, "--closest"],
    "replaced.png": ["room.scene", "--replace", "bricks.tif", str(DEMO / "rings.tif")],
    "near_fixed.png": ["near.scene", *SMALL, "--fixed"],
    "near_fine.png": ["near.scene", *SMALL],
    "slope_fixed.png": ["slope.scene", *SMALL, "--fixed"],
    "slope_ellipse.png": ["slope.scene", *SMALL],
}
# how far a sample may be from that of the stored picture, and in the mean: other machines compute other sines
MOST, MEAN = 3, 0.02
SIGNATURE = b"\x89PNG\r\n\x1a\n"
# the filters of rows that are written and read: the row as it is, and its differences from the row above
PLAIN, UP = 0, 2


# ---- pictures

def png_of(picture):
    """A PPM picture as PNG."""
    width, height = map(int, picture.split(b"\n", 2)[1].split())
    samples = picture[-3 * width * height:]
    rows = [samples[at:at + 3 * width] for at in range(0, len(samples), 3 * width)]
    above = [bytes(3 * width), *rows]
    data = b"".join(bytes([UP]) + bytes((a - b) & 255 for a, b in zip(row, other)) for row, other in zip(rows, above))

    def chunk(kind, inside):
        return struct.pack(">I", len(inside)) + kind + inside + struct.pack(">I", zlib.crc32(kind + inside))

    head = struct.pack(">IIBBBBB", width, height, 8, 2, 0, 0, 0)
    return SIGNATURE + chunk(b"IHDR", head) + chunk(b"IDAT", zlib.compress(data, 9)) + chunk(b"IEND", b"")


def samples_of(png):
    """The samples of a picture that png_of made."""
    at, data, width = len(SIGNATURE), b"", 0
    while at < len(png):
        size, kind = struct.unpack(">I4s", png[at:at + 8])
        inside = png[at + 8:at + 8 + size]
        width = struct.unpack(">I", inside[:4])[0] if kind == b"IHDR" else width
        data += inside if kind == b"IDAT" else b""
        at += 12 + size
    data, found, above = zlib.decompress(data), [], bytes(3 * width)
    for start in range(0, len(data), 3 * width + 1):
        row = data[start + 1:start + 1 + 3 * width]
        if data[start] == UP:
            row = bytes((a + b) & 255 for a, b in zip(row, above))
        found.append(row)
        above = row
    return b"".join(found)


def half(picture, number):
    """The upper half of a PPM picture, or the lower one."""
    samples = picture[picture.index(b"255\n") + 4:] if picture else b""
    return samples[:len(samples) // 2] if number == 0 else samples[len(samples) // 2:]


class Tests:
    """The tests, in a temporary folder with the scenes, and how many passed and failed."""

    def __init__(self, library, room):
        self.library, self.room, self.passed, self.failed = library, room, 0, 0
        self.count = 0

    def say(self, is_so, what, more=""):
        self.passed += bool(is_so)
        self.failed += not is_so
        print(f"{'passed' if is_so else 'failed'}: {what}{'' if is_so else ': ' + str(more)[-2000:]}", flush=True)
        return is_so

    def is_built(self):
        status, text = said([shutil.which("cc"), *FLAGS, "-o", self.room / "renderer", HERE / "renderer.c", self.library,
                             "-lm", "-lpthread"], seconds=600)
        return self.say(status == 0, "the renderer compiles without a warning", text)

    def made(self, what, folder, *more):
        status, text = said([sys.executable, HERE / "textures.py", what, folder, *more], seconds=600)
        return self.say(status == 0, f"textures.py {what}", text)

    def run(self, scene, *more, search=DEMO):
        """The status of a run, what it says, and its picture, which is empty if there is none."""
        self.count += 1
        out = self.room / f"{self.count}.ppm"
        status, text = said([self.room / "renderer", scene, out, "--search-path", search, *more], seconds=600)
        return status, text, out.read_bytes() if out.is_file() else b""

    def picture(self, what, scene, *more, search=DEMO):
        status, text, found = self.run(scene, *more, search=search)
        self.say(status == 0 and found, what, text)
        return found

    def refused(self, what, wanted, scene, *more, status=1, search=DEMO):
        """Tests that a run fails, with words."""
        got, text, found = self.run(scene, *more, search=search)
        self.say(got == status and wanted in text and not found, what, f"status {got}: {text}")


# ---- the tests

def threads(tests):
    room = tests.room / "room.scene"
    one, many = (tests.picture(f"{it} threads", room, "--threads", it) for it in ("1", "15"))
    usual = tests.picture("as many threads as there are processors", room)
    tests.say(one == many == usual != b"", "the picture is the same for 1 and 15 threads, and those of this machine")
    small = tests.picture("a budget of 1000 bytes", room, "--budget", "1000")
    tests.say(small == one, "the picture is the same with a small budget")
    tests.refused("more threads than the library has passes", "passes is 10001", room, "--threads", "10000")
    for more in ("--closest", "--fixed"):
        tests.say(tests.picture(more, room, more) not in (one, b""), f"the picture of {more} is another one")
    return one


def arguments(tests):
    room, bad = tests.room / "room.scene", tests.room / "bad.scene"
    status, text, _ = tests.run(room, "--progress", "--height", "100")
    tests.say(status == 0 and "row 1 of 100, 1%" in text and "row 100 of 100, 100%" in text, "--progress", text)
    status, text, _ = tests.run(room)
    tests.say(status == 0 and re.fullmatch(r"\d+ threads: needs \d+ hits \d+ looks \d+ opens \d+ reads \d+ bytes \d+, \d+ KB at most\n",
                                           text), "the counts, and no progress in a file", text)
    for words, wanted in ((["--nosuch", "1"], "--nosuch"), (["--width", "0"], "--width"), (["--threads", "0"], "--threads"),
                          (["--budget"], "the last argument"), (["more"], "a scene and the name of the picture")):
        tests.refused(f"the arguments {' '.join(words)}", wanted, room, *words, status=2)
    tests.refused("a scene that does not exist", "cannot be opened", tests.room / "none.scene")
    for line, wanted in (("plane 1 2 3 a.tif", "line 3: this is no `plane`"), ("ball 0 0 5 1 none.tif", "no plain file is found"),
                         ("ball 0 0 5 -1 rings.tif", "line 3"), ("cube rings.tif", "line 3"),
                         ("plane 0 0 5 1 0 0 0 1 0 1 1 none.<UDIM>.tif", "no tile of this name is found"),
                         ("ball 0 0 5 1 cut.tif", "cut.tif: the file is not accepted"),
                         ("\n".join(["ball 0 0 5 1 rings.tif"] * 257), "at most 256 objects")):
        bad.write_text(f"# a scene\n\n{line}\n")
        tests.refused(f"the scene {line[:60]!r}", wanted, bad)


def paths(tests):
    """The folder of the scene comes first, then those of the search path; a name may lead into a subfolder."""
    scene, first, second = (tests.room / it for it in ("paths/a.scene", "first", "second"))
    for folder in (scene.parent / "sub", first, second):
        folder.mkdir(parents=True)
    line = "plane -1 1 1  2 0 0  0 -2 0  1 1  sub/../sub/x.tif\n"
    scene.write_text(line)
    both = f"{first}:{second}"
    tests.refused("a texture that is nowhere", "no plain file", scene, search=both)
    found = []
    for folder, name in ((second, "rings.tif"), (first, "hills.tif"), (scene.parent, "bricks.tif")):
        (folder / "sub").mkdir(exist_ok=True)
        shutil.copy(DEMO / name, folder / "sub" / "x.tif")
        scene.write_text(line.replace("sub/../sub/x.tif", name))
        wanted = tests.picture(name, scene)
        scene.write_text(line)
        found.append(tests.picture(f"{name} at sub/x.tif", scene, search=both) == wanted != b"")
    tests.say(all(found), "the search path, and before it the scene's own folder", found)


def tiles(tests):
    """Each tile of a UDIM set is on its quarter of a plane; a missing one is an error."""
    folder = tests.room / "udim"
    folder.mkdir()
    for number, name in ((1001, "rings.tif"), (1002, "hills.tif"), (1011, "bricks.tif"), (1012, "rings.tif")):
        shutil.copy(DEMO / name, folder / f"x.{number}.tif")
    scene, quarters = folder / "udim.scene", folder / "quarters.scene"
    scene.write_text("plane -1 1 1  2 0 0  0 -2 0  2 2  x.<UDIM>.tif\n")
    quarters.write_text("".join(f"plane {x} {y} 1  1 0 0  0 -1 0  1 1  x.{number}.tif\n"
                                for x, y, number in ((-1, 1, 1001), (0, 1, 1002), (-1, 0, 1011), (0, 0, 1012))))
    one, other = (tests.picture(it.name, it, "--closest", "--width", "400", "--height", "250") for it in (scene, quarters))
    tests.say(one == other != b"", "a UDIM set on a plane is as its four tiles on four planes")
    (folder / "x.1012.tif").unlink()
    tests.refused("a missing tile", "1012", scene)


def replaced(tests, before):
    pictures = []
    for count in ("1", "8"):
        folder = tests.room / f"scene{count}"
        shutil.copytree(DEMO, folder)
        pictures.append(tests.picture(f"a texture that is replaced, {count} threads", tests.room / "room.scene", "--threads", count,
                                      "--replace", "bricks.tif", folder / "rings.tif", search=folder))
    tests.say(pictures[0] == pictures[1] != b"", "the picture with a replaced texture is the same for both")
    tests.say(half(pictures[0], 0) == half(before, 0) and half(pictures[0], 1) != half(before, 1),
              "its upper half shows the texture of before, and its lower half the other one")


def many(tests):
    folder = tests.room / "many"
    tests.made("many", folder, "--side", "256")
    pictures = [tests.picture(f"64 textures, {it} threads", folder / "many.scene", "--budget", "1000000", "--threads", it)
                for it in ("1", "8")]
    tests.say(pictures[0] == pictures[1] != b"", "the picture of 64 textures is the same for 1 and 8 threads")


def compare(tests, writes):
    """The pictures of the repository, and those that this renderer makes now."""
    for name, (scene, *words) in PICTURES.items():
        search = DEMO
        if "--replace" in words:
            search = tests.room / "replaced"
            shutil.copytree(DEMO, search)
        found = tests.picture(f"rendering {name}", tests.room / scene, *words, search=search)
        place = HERE / name
        if found and writes:
            place.write_bytes(png_of(found))
        if not found or not place.is_file():
            tests.say(place.is_file(), f"examples/renderer/{name} is there")
            continue
        stored, samples = samples_of(place.read_bytes()), samples_of(png_of(found))
        gaps = [abs(a - b) for a, b in zip(stored, samples)]
        most, mean = max(gaps), sum(gaps) / len(gaps)
        tests.say(len(stored) == len(samples) and most <= MOST and mean <= MEAN,
                  f"examples/renderer/{name}: at most {most}, in the mean {mean:.4f} of 255", f"they may be {MOST} and {MEAN}")
    for one, other in (("near_fixed.png", "near_fine.png"), ("slope_fixed.png", "slope_ellipse.png")):
        gaps = [abs(a - b) for a, b in zip(*(samples_of((HERE / it).read_bytes()) for it in (one, other)))]
        tests.say(sum(gaps) / len(gaps) > 1.5, f"{one} and {other} differ, in the mean by {sum(gaps) / len(gaps):.1f}")


def add_arguments(parser):
    parser.add_argument("--library", type=Path, metavar="FILE",
                        help="the library; else the proved one if it is up to date, or an unproved build")
    parser.add_argument("--write", action="store_true", help="write the pictures of examples/renderer")
    Skips.add_argument(parser)


def run(args):
    skips = Skips(args)
    if skips.lacks(None if shutil.which("cc") else "a C compiler", "renderer"):
        return 1 if skips.failed else 0
    with tempfile.TemporaryDirectory() as room:
        tests = Tests(archive_of(args.library), Path(room))
        shutil.copy(HERE / "room.scene", room)
        is_ready = [tests.is_built(), tests.made("board", Path(room) / "textures"), tests.made("near", room), tests.made("slope", room)]
        if all(is_ready):
            before = threads(tests)
            for step in (arguments, paths, tiles, many):
                step(tests)
            replaced(tests, before)
            compare(tests, args.write)
    print(f"renderer: {tests.passed} passed, {tests.failed} failed")
    return 1 if tests.failed or skips.failed else 0
