"""Tests of ./texcache and ./texmake: their statuses, what they print, and their error texts.

Each line and each argument of list_rows.py is tried too: an invalid one gets an error text, a valid one none.
"""
import os
import subprocess
import sys
import tempfile
from pathlib import Path

from texcheck.common import TOP
from texcheck.list_rows import BAD_WORDS, PLAIN, RIGHT, SEVERAL, SPELLED, WRONG
from texcheck.lists import OPTIONS
from texcheck.words import bad_line, read_arguments

HELP = "./texcache and ./texmake: statuses, and errors in words"
FLOATS = "tex 0.5 0.25 0 clamp clamp bilinear 3 hills.tif"

# The command, its arguments, the list, the status, what is printed, and what is said, each in some words.
CASES = [
    ("texcache", "demo --workers 1", "sync", 0, "sync\nworker 0 needs 0 hits 0\ntotal 1 refused 0\n", []),
    ("texcache", "demo --workers 1", "drop", 1, "nothing held\nworker 0 needs 0 hits 0\ntotal 1 refused 1\n", []),
    ("texcache", "demo --workers 17", "", 2, "bad words\n", ["--workers 17", "1 to 16"]),
    ("texcache", "demo --budget 64M", "", 2, "bad words\n", ["--budget 64M", "67108864", "4294967296 bytes"]),
    ("texcache", "demo --autotile 24", "", 2, "bad words\n", ["--autotile 24", "a multiple of 16"]),
    ("texcache", "demo --shards 2 --shards 2", "", 2, "bad words\n", ["--shards", "twice"]),
    ("texcache", "demo --nosuch", "", 2, "bad words\n", ["--nosuch", "no such option", "--handles"]),
    ("texcache", "demo demo", "", 2, "bad words\n", ["one folder", "there are 2"]),
    ("texcache", "", "", 2, "", ["usage: texcache"]),
    ("texcache", "--help", "", 0, "usage: texcache", []),
    ("texcache", "demo -h", "", 0, "usage: texcache", []),
    ("texcache", "--version", "", 0, "texcache VERSION\n", []),
    ("texcache", "nofolder", "", 4, "folder fault\n", ["nofolder", os.strerror(2)]),
    ("texcache", "README.md", "", 4, "folder fault\n", ["README.md", os.strerror(20)]),
    ("texcache", "demo", FLOATS, 3, "bad list 1 3\n", ["line 1", "field 1, S", "'0.5'", "tools/uv.py", FLOATS]),
    ("texcache", "demo", "sync\n\ntex 0 0 0 clamp mirrored closest 1 x", 3, "bad list 3 5\n",
     ["line 3", "field 5, TWRAP", "'mirrored'", "black, clamp, periodic, mirror"]),
    ("texcache", "demo", "pixels 0 0 0 1 x", 3, "bad list 1 3\n", ["field 5, H", "'x'", "0 to 4294967295"]),
    ("texcache", "demo", "info", 3, "bad list 1 2\n", ["NAME is missing", "info NAME"]),
    ("texmake", "", "", 2, "", ["FOLDER NAME [T]"]),
    ("texmake", "demo", "", 2, "", ["FOLDER NAME [T]"]),
    ("texmake", "demo hills.tif 24", "", 2, "", ["'24'", "multiple of 16 from 16 to 256"]),
    ("texmake", "demo hills.tif -o", "", 2, "", ["-o", "missing"]),
    ("texmake", "nofolder x", "", 4, "", ["nofolder", os.strerror(2)]),
    ("texmake", "demo nosuch.tif", "", 7, "", ["nosuch.tif", "no such file"]),
    ("texmake", "demo README.md", "", 8, "", ["README.md", "neither with II nor with MM", "oiiotool"]),
    ("texmake", "crates/texcache/data lzw.tif", "", 8, "", ["LZW", "tiffcp"]),
    ("texmake", "demo cut.tif", "", 8, "", ["strip or tile 2 of level 0", "write it again"]),
    ("texmake", "--version", "", 0, "texmake VERSION\n", []),
]


class Checker:
    def __init__(self):
        self.count, self.wrong = 0, 0

    def compare(self, what, is_so, said=""):
        self.count += 1
        if not is_so:
            self.wrong += 1
            print(f"{what}: {said}", file=sys.stderr)


def called(command, arguments, given="", **more):
    return subprocess.run([TOP / command, *arguments], cwd=TOP, input=given.encode(), capture_output=True, check=False,
                          **more)


def check_cases(checker):
    version = (TOP / "VERSION").read_text(encoding="ascii").strip()
    for command, words, given, status, printed, said in CASES:
        done = called(command, words.split(), given)
        out, error = done.stdout.decode(), done.stderr.decode()
        printed = printed.replace("VERSION", version)
        is_so = out == printed or printed.startswith("usage") and out.startswith(printed)
        is_so = is_so and done.returncode == status and all(it in error for it in said)
        checker.compare(f"./{command} {words}", is_so, f"status {done.returncode}, and not {status}\n{out}{error}")


def check_tables(checker):
    """The error texts of words.py for the lines and arguments of list_rows.py."""
    for line in [it for lines in WRONG.values() for it in lines] + [line for line, _ in SEVERAL]:
        checker.compare(f"nothing is said of {line!r}", bad_line(line))
    for line in RIGHT + [line for line, _ in SPELLED]:
        checker.compare(line, bad_line(line) is None, bad_line(line))
    for words in BAD_WORDS:
        checker.compare(f"nothing is said of {words!r}", read_arguments(words.split("|"))[1])
    for words, folder in [it[:2] for it in OPTIONS] + PLAIN:
        found = read_arguments(words.split("|"))
        checker.compare(words, found == ([folder], None), found)


def check_surroundings(checker, room):
    """A symbolic link, a texture that is written completely or not at all, other kinds of standard input, and no
    toolchain."""
    (room / "texcache").symlink_to(TOP / "texcache")
    demo = (TOP / "demo" / "requests.txt").read_bytes()
    expected = (TOP / "demo" / "expected.txt").read_bytes()
    done = subprocess.run([room / "texcache", TOP / "demo"], cwd=room, input=demo, capture_output=True, check=False)
    checker.compare("through a link", (done.stdout, done.returncode) == (expected, 0), done.stderr)
    with open(TOP / "demo" / "requests.txt", "rb") as file:
        done = subprocess.run([TOP / "texcache", TOP / "demo"], stdin=file, capture_output=True, check=False)
    checker.compare("a list from a file", (done.stdout, done.returncode) == (expected, 0), done.stderr)
    at = os.open(TOP / "demo", os.O_RDONLY)
    done = subprocess.run([TOP / "texcache", TOP / "demo"], stdin=at, capture_output=True, check=False)
    os.close(at)
    checker.compare("a folder as the list", (done.stdout, done.returncode) == (b"list fault\n", 4)
                    and os.strerror(21) in done.stderr.decode(), done.stderr)
    for name, status, files in (("hills.tif", 0, ["out.tif"]), ("cut.tif", 8, [])):
        (room / "made").mkdir(exist_ok=True)
        done = called("texmake", ["demo", name, "16", "-o", str(room / "made" / "out.tif")])
        is_so = done.returncode == status and os.listdir(room / "made") == files
        checker.compare(f"texmake -o of {name}", is_so, done.stderr)
        if files:
            same = (room / "made" / "out.tif").read_bytes() == (TOP / "demo" / "textures" / name).read_bytes()
            checker.compare(f"what texmake -o makes of {name}", same)
            (room / "made" / "out.tif").unlink()
    # a copy without anything built, and a path on which there is no `rt`
    (room / "bin").mkdir()
    for it in ("bash", "env", "dirname", "realpath", "python3"):
        (room / "bin" / it).symlink_to(Path(sys.executable) if it == "python3" else Path("/usr/bin") / it)
    copy = room / "copy"
    copy.mkdir()
    subprocess.run(["cp", "-r", *(TOP / it for it in ("texcache", "tools", "crates.txt", "VERSION")), copy], check=True)
    done = subprocess.run([copy / "texcache", TOP / "demo"], input=b"", capture_output=True, check=False,
                          env={"PATH": str(room / "bin")})
    checker.compare("no toolchain", done.returncode == 125 and b"toolchain" in done.stderr, done.stderr)



def run(_args):
    checker = Checker()
    check_tables(checker)
    check_cases(checker)
    with tempfile.TemporaryDirectory() as room:
        check_surroundings(checker, Path(room))
    print(f"commands: {checker.wrong} of {checker.count} comparisons fail")
    return 1 if checker.wrong else 0
