"""Tests of tools/prepare.py: the textures of images of each kind, the errors, and that it never leaves half a file or
replaces a file that it did not make.

The expected values are computed by the formulas of the images (for JPEG by Pillow), and the textures of accepted files
by textures.py. The short form takes less than a minute. With --full it also makes an image of 8192 by 8192, takes more
files, fills a small disk, and tries each converter that is installed.
"""
import os
import pty
import re
import shutil
import subprocess
import sys
import tempfile
import time
from pathlib import Path

from texcheck import textures
from texcheck.common import TOP, Skips, add_program, debian_python, program_of
from texcheck.prepare_case import MARK, SCRIPT, Case, check_accepted, counts, tree
from texcheck.prepare_faults import check_bad_input, check_interrupted, check_killed, check_no_space, check_read_only
from texcheck.prepare_images import (ACCEPTED, EXACT, HEIGHT, WIDTH, large_sample, missing, plain, write_cropped,
                                     write_images, write_large)
from texcheck.reference import on_pages

HELP = "tools/prepare.py: images of each kind, bad input, Ctrl-C, a full disk, --list, --verify"


def answers(texcache, folder, requests):
    done = subprocess.run([texcache, "--workers", "1", "--", folder], input="".join(f"{it}\n" for it in requests).encode(),
                          stdout=subprocess.PIPE, stderr=subprocess.DEVNULL, check=False)
    return [it.split() for it in done.stdout.decode().splitlines()[:len(requests)]]


def is_near(found, wanted, near):
    """Whether an answer is the wanted one, each value within `near`."""
    return (len(found) == len(wanted) and found[:2] == [str(it) for it in wanted[:2]]
            and all(abs(int(a) - int(b)) <= near for a, b in zip(found[2:], wanted[2:])))


LOOKUPS = [("pixels", f"0 0 0 {WIDTH} {HEIGHT}"), ("pixels", f"2 0 0 {WIDTH // 4} {HEIGHT // 4}"),
           ("tex", "20000 50000 0 clamp mirror bilinear 3"), ("tex", "60000 3000 0 periodic black closest 3"),
           ("tex", "-9000 40000 98304 periodic periodic trilinear 3")]


def check_values(case, texcache, dest, images):
    """Each texture answers what the formula of its image says, on all levels."""
    for it in images:
        found = answers(texcache, dest, [f"{word} {numbers} {it.target}" for word, numbers in LOOKUPS])
        for (word, numbers), line in zip(LOOKUPS, found):
            wanted = on_pages(word, numbers.split(), [it.page])
            case.expect(is_near(line, wanted, it.near), f"{it.name}: {word} {numbers}", f"{line[:20]}, not {wanted[:20]}")


UDIM = ["UDIM: sub dir/wall.<UDIM>.tif, 4 tiles: 1001, 1002, 1011, 1012",
        "warning: sub dir/wall.<UDIM>.tif: tile 1012 is 20 by 24, 3 channels of 8 bits, and most tiles are 40 by 24"]


def check_kinds(case, texcache, converter, number):
    """Images of each kind through a converter, compared by two readers; then nothing is left to do."""
    source, dest = case.folder(f"kinds{number}") / "in", case.room / f"kinds{number}" / "out"
    images = write_images(source)
    words = [source, dest, "--convert", "--converter", converter, "--verify"]
    if converter == "ImageMagick":
        # it reads no EXR
        (source / "half.exr").unlink()
        images = [it for it in images if it.name != "half.exr"]
    if converter == "oiiotool":
        # vips has the data window alone
        images.append(write_cropped(source))
    before = tree(source)
    plan = case.run(*words[:-1], "--check")[1]
    case.expect(not dest.exists() and tree(source) == before, "--check changed something")
    count = len(images) + len(ACCEPTED)
    text = case.expect_run(f"{converter}: each kind", 1, f"{count} made, 0 up to date, 1 failed, {count} compared", *words)
    case.expect("failed: broken.png: " in text, "the broken file is not named", text)
    case.expect(all(it in text for it in UDIM), "the UDIM set is not reported", text)
    case.expect("clamped to 0 to 1: floats.tif, " in text, "clamping is not reported", text)
    if converter != "ImageMagick":
        case.expect("floats.tif, values from -0.1 to 1.0875" in text and "half.exr, values from -0.0" in text,
                    "the range of the floats", text)
    case.expect("left out, not named as an image: sub dir/-notes on it.txt" in text, "other files", text)
    check_values(case, texcache, dest, images)
    check_accepted(case, source, dest, ACCEPTED)
    planned = re.search(rf"{count + 1} images: ", plan) and all(f"would make: {it.target} of" in plan for it in images)
    case.expect(planned and all(it in plan for it in UDIM), "--check does not say what is done", plan)
    made = tree(dest)
    case.expect(tree(source) == before and len(made) == count, "the source was changed, or files are left", list(made))
    text = case.run(*words)[1]
    case.expect(counts(text) == (count + 1, 0, count, 1) and tree(dest) == made, "a second run made something", text)
    return source, dest, made


def check_options(case, source):
    """--flat, --tile, --bits, --only, and no converter."""
    dest = case.room / "flat"
    text = case.expect_run("--flat without --convert", 1, "6 made, 0 up to date, 10 failed", source, dest, "--flat")
    case.expect(sorted(it.name for it in dest.iterdir())[:2] == ["plain.tif", "sub dir_wall.1001.tif"], "names of --flat")
    for part in ("a.png: it is not a TIFF. What helps: --convert; or oiiotool ", "lzw.TIFF: Compression is 5, LZW. What helps: "
                 "--convert; or tiffcp -c none "):
        case.expect(part in text, f"what helps: {part!r}", text)
    only = [source, dest, "--flat", "--only", "plain.tif"]
    case.expect_run("nothing new", 0, "1 image: 0 made, 1 up to date", *only)
    case.expect_run("another --tile", 0, "1 image: 1 made", *only, "--tile", "16")
    wanted = textures.wanted((source / "plain.tif").read_bytes(), 16)[1]
    case.expect((dest / "plain.tif").read_bytes().startswith(wanted + MARK), "tiles of 16")
    case.expect_run("--bits 8", 0, "1 made", source, dest, "--only", "a.png", "--convert", "--bits", "8")
    wanted = textures.wanted(plain(), 64)[1]
    case.expect((dest / "a.tif").read_bytes().startswith(wanted + MARK), "a PNG with --bits 8 is not the TIFF's texture")
    # a new file of the same length, and of another time
    (source / "plain.tif").write_bytes(plain()[:-1] + b"\0")
    case.expect_run("a changed image", 0, "1 image: 1 made", *only)
    case.expect_run("no such image", 1, "no.tif: No such file", source, dest, "--only", "no.tif")
    case.expect_run("an image elsewhere", 1, "a name below SOURCE is expected", source, dest, "--only", "../in/plain.tif")
    empty = case.folder("empty path")
    case.expect_run("no converter", 1, "no converter is installed. What helps: tools/setup", source, dest, "--only", "a.png",
                    "--convert", "--bits", "16", env={"PATH": str(empty)})


def check_list(case, source, made, skips, is_full):
    """The commands of --list make the same textures, from any folder, by sh and as docs/TEXTURES.md shows."""
    words = [source, case.room / "listed", "--convert", "--list", "--verify"]
    status, text = case.run(*words)
    lines = [it for it in text.splitlines() if it.startswith("/")]
    case.expect(len(lines) == len(made) + 1 and all(str(SCRIPT) in it for it in lines), "--list", (status, text[:500]))
    case.expect(not (case.room / "listed").exists(), "--list wrote something")
    document = (TOP / "docs" / "TEXTURES.md").read_text(encoding="utf-8")
    parallel = re.search(r"^parallel .*< list$", document, re.M)
    case.expect(parallel, "docs/TEXTURES.md has no line for GNU parallel")
    is_missing = None if shutil.which("parallel") else "parallel"
    command = "sh list" if skips.lacks(is_missing, "--list by GNU parallel") or not parallel else parallel[0]
    place = case.folder("scheduler")
    tried = lines if is_full else lines[:6]
    (place / "list").write_text("".join(f"{it}\n" for it in tried), encoding="utf-8")
    # two jobs at a time on this host, without ssh
    (place / "hosts").write_text("2/:\n", encoding="ascii")
    subprocess.run(command, shell=True, cwd=place, env={**os.environ, "HOME": str(place)}, stdout=subprocess.DEVNULL,
                   stderr=subprocess.DEVNULL, check=False)
    found = tree(case.room / "listed")
    # (one of the images is broken)
    case.expect(len(found) == len(tried) - 1 and all(found[it][0] == made[it][0] for it in found),
                "the commands of --list make other textures", list(found))


def check_verify(case, source):
    """A texture that differs is not kept, by either reader."""
    bad = case.room / "texmake-bad"
    bad.write_text(f"#!/bin/sh\n'{case.program}' \"$@\" > '{case.room}/t' || exit\n"
                   f"(head -c 2000 '{case.room}/t'; printf '\\377\\0'; tail -c +2003 '{case.room}/t')\n", encoding="utf-8")
    bad.chmod(0o755)
    path = case.folder("few programs")
    for it in ("sh", "head", "tail", "python3"):
        (path / it).symlink_to(shutil.which(it))
    for name, environment in (("oiiotool", {}), ("Pillow", {"env": {"PATH": str(path)}})):
        dest = case.room / f"verified by {name}"
        only = [source, dest, "--verify", "--only", "plain.tif"]
        case.expect_run(f"a wrong texture, {name}", 1, "the texture was not kept: another reader finds other values", *only, program=bad,
                        **environment)
        case.expect(not tree(dest), "a wrong texture was kept")
        case.expect_run(f"a right texture, {name}", 0, "1 made, 0 up to date, 0 failed, 1 compared", *only, **environment)


def check_bar(case, source):
    """On a terminal a bar is shown."""
    seen = []

    def read(file):
        seen.append(os.read(file, 65536))
        return seen[-1]

    program = [debian_python(), str(SCRIPT), str(source), str(case.room / "shown"), "--program", str(case.program)]
    # the output goes to the terminal that this check makes
    with open(os.devnull, "wb") as nothing:
        kept = os.dup(1)
        os.dup2(nothing.fileno(), 1)
        try:
            pty.spawn(program, read, lambda _file: b"")
        finally:
            os.dup2(kept, 1)
            os.close(kept)
    text = b"".join(seen).decode(errors="replace")
    case.expect(re.search(r"\r\[#+ *\] \d+ of \d+ files, \d+ of \d+ MB", text) and "made image" not in text, "the bar", text[:500])
    case.expect("images: " in text, "the summary on a terminal", text[-300:])


def check_large(case, texcache):
    """An image that texmake does not read is made by the converter, with all levels."""
    source, dest = case.folder("large") / "in", case.room / "large" / "out"
    source.mkdir()
    write_large(source / "large.tif")
    case.expect_run("large, without --convert", 1, "it has 201326592 samples, and texmake reads at most 67108864. What helps:",
                    source, dest)
    case.expect_run("large", 0, "large, so made by oiiotool with all levels: large.tif", source, dest, "--convert", "--verify")
    places = [(0, 0), (8191, 8191), (64, 63), (4000, 5003)]
    lines = answers(texcache, dest, ["info large.tif", *(f"pixels 0 {x} {y} 1 1 large.tif" for x, y in places),
                                     "pixels 1 10 10 1 1 large.tif"])
    case.expect(lines[0] == "info 1 8192 8192 3 8 14 14".split(), "the facts of the large texture", lines[0])
    for (x, y), line in zip(places, lines[1:]):
        wanted = ["pixels", 1, 3, *(257 * large_sample(x, y, c) for c in range(3))]
        case.expect(is_near(line, wanted, EXACT), f"texel {x}, {y} of the large image", f"{line}, not {wanted}")
    four = [[large_sample(20 + i, 20 + j, c) for i in (0, 1) for j in (0, 1)] for c in range(3)]
    wanted = ["pixels", 1, 3, *(257 * round(sum(it) / 4) for it in four)]
    case.expect(is_near(lines[-1], wanted, 257), "level 1 of the large image", f"{lines[-1]}, not {wanted}")


def add_arguments(parser):
    add_program(parser, "texmake")
    add_program(parser, "texcache", "--texcache")
    Skips.add_argument(parser)
    parser.add_argument("--full", action="store_true", help="more and larger files, each converter, a full disk")
    parser.add_argument("--files", type=int, metavar="N", help="how many files are interrupted; 120, or 1000 with --full")
    parser.add_argument("--bytes", type=int, metavar="N", help="the bytes of each; 50000, or 100000 with --full")


def converters(is_full):
    """The converters to test: the first that is installed, or all."""
    sys.path.insert(0, str(TOP / "tools"))
    from texprepare.converters import ALL
    found = [it.name for it in ALL if it.is_there()]
    return found if is_full else found[:1]


def run(args):
    program, texcache, skips = program_of(args, "texmake"), program_of(args, "texcache", "texcache"), Skips(args)
    began = time.monotonic()
    with tempfile.TemporaryDirectory(prefix="prepare-") as room:
        case = Case(program, Path(room))
        source = check_interrupted(case, args.files or (1000 if args.full else 120),
                                   args.bytes or (100000 if args.full else 50000))
        check_no_space(case, source, args.full)
        check_killed(case, source)
        check_bar(case, source)
        check_bad_input(case)
        check_read_only(case)
        if not skips.lacks(missing(), "prepare.py --convert"):
            for number, converter in enumerate(converters(args.full)):
                images, dest, made = check_kinds(case, texcache, converter, number)
                if number == 0:
                    check_list(case, images, made, skips, args.full)
                    check_options(case, images)
                    check_verify(case, images)
            if args.full:
                check_large(case, texcache)
        print(f"prepare: {case.wrong} of {case.count} comparisons fail, after {time.monotonic() - began:.0f} s")
        return 1 if case.wrong or skips.failed else 0
