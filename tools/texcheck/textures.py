"""Compares what texmake writes with the texture that docs/FORMAT.md, "Textures that are made", defines for a file.

Only the output and the status of texmake are compared: status 0 and these bytes, or status 8 and no bytes if the file
has a fault. Each texture is read again: its levels must be those of the file. Wrong arguments and unknown names must be
refused. Then texcache must answer regions and lookups of each texture as it answers those of the file, on each level
that the file has. With --readers libtiff and OpenImageIO must read each texture.
"""
import shutil
import struct
import subprocess
import sys
import tempfile
from functools import partial
from pathlib import Path

from texcheck.common import TOP, Missing, add_program, program_of
from texcheck.plain_reader import Fault, pages_of
from texcheck.tiff import LITTLE, LONG, NARROW, SHORT, laid_out

HELP = "what texmake makes of each file of a folder"
WHITE_IS_ZERO, RGB = 0, 2
MOST_SAMPLES = 67108864
MADE, BAD_WORDS, NO_FILE, BAD_FILE, TOO_LARGE = 0, 2, 7, 8, 9

# values of T that are refused: a side is a multiple of 16 from 16 to 256
WRONG_SIDES = ("0", "8", "24", "272", "+16", "-16", " 16", "16.", "", "00000000016")


# Programs that read a texture and answer 0 where they can.
READERS = (("tiffinfo",), ("oiiotool", "--info"))


def sample_of(page, x, y):
    """The samples of a texel of a stored level, by the white rule."""
    found = page.texel(x, y)
    if page.photometric == WHITE_IS_ZERO:
        found[0] = 2 ** page.depth - 1 - found[0]
    return found


def halved(level):
    """The level behind one, whose rows are lists of texels."""
    wide, high = len(level[0]), len(level)

    def texel(x, y):
        four = [level[min(2 * y + j, high - 1)][min(2 * x + i, wide - 1)] for j in (0, 1) for i in (0, 1)]
        return [(sum(samples) + 2) // 4 for samples in zip(*four)]

    return [[texel(x, y) for x in range(max(1, wide // 2))] for y in range(max(1, high // 2))]


def levels_of(pages):
    """All levels down to one texel."""
    levels = [[[sample_of(page, x, y) for x in range(page.width)] for y in range(page.height)] for page in pages]
    while (len(levels[-1][0]), len(levels[-1])) != (1, 1):
        levels.append(halved(levels[-1]))
    return levels


def tiles_of(level, depth, side):
    """The bytes of each tile, with its padding."""
    wide, high, none = len(level[0]), len(level), [0] * len(level[0][0])
    form = "<B" if depth == 8 else "<H"
    for top in range(0, high, side):
        for left in range(0, wide, side):
            texels = [level[y][x] if y < high and x < wide else none
                      for y in range(top, top + side) for x in range(left, left + side)]
            yield b"".join(struct.pack(form, sample) for texel in texels for sample in texel)


def made(pages, levels, side):
    """The texture of a file that has these levels."""
    depth, channels = pages[0].depth, len(levels[0][0][0])
    is_rgb = pages[0].photometric == RGB and channels >= 3
    extra = channels - (3 if is_rgb else 1)

    def fields(number, level, offsets, sizes):
        found = [(254, LONG, [min(number, 1)]), (256, LONG, [len(level[0])]), (257, LONG, [len(level)]),
                 (258, SHORT, [depth] * channels), (259, SHORT, [1]), (262, SHORT, [2 if is_rgb else 1]),
                 (277, SHORT, [channels]), (284, SHORT, [1]), (322, LONG, [side]), (323, LONG, [side]),
                 (324, LONG, offsets), (325, LONG, sizes)]
        return found + ([(338, SHORT, [0] * extra)] if extra else [])

    return laid_out(LITTLE, NARROW, [(list(tiles_of(level, depth, side)), None, partial(fields, number, level))
                                     for number, level in enumerate(levels)])


def wanted(data, side):
    """The status and the bytes that the program is to end with, and the levels of the file."""
    try:
        pages = pages_of(data)
    except Fault:
        return BAD_FILE, b"", None
    if pages[0].width * pages[0].height * len(pages[0].texel(0, 0)) > MOST_SAMPLES:
        return TOO_LARGE, b"", None
    levels = levels_of(pages)
    return MADE, made(pages, levels, side), levels


def check(program, folder, side):
    """How many files of the folder the program makes something else of."""
    bad = 0
    for path in sorted(path for path in Path(folder).iterdir() if path.is_file()):
        status, out, levels = wanted(path.read_bytes(), side)
        done = subprocess.run([program, folder, path.name, str(side)], stdout=subprocess.PIPE, check=False)
        if (done.returncode, done.stdout) != (status, out):
            bad += 1
            print(f"{path.name}: status {done.returncode} and {len(done.stdout)} bytes, wanted {status} and {len(out)}")
        elif status == MADE and levels_of(pages_of(out)) != levels:
            bad += 1
            print(f"{path.name}: its texture has other levels than the file")
    return bad


def check_refusals(program, folder):
    """How many invalid arguments do not end with the status that docs/TEXTURES.md says."""
    name = min(path.name for path in Path(folder).iterdir() if path.is_file())
    folder = str(folder)
    asked = [(["-" + folder, name], BAD_WORDS), ([folder, name, "16", "16"], BAD_WORDS), ([], BAD_WORDS)]
    asked += [([folder], BAD_WORDS), ([folder, "no such file"], NO_FILE), ([folder, ""], NO_FILE)]
    asked += [([folder, name, side], BAD_WORDS) for side in WRONG_SIDES]
    bad = 0
    for words, status in asked:
        done = subprocess.run([program, *words], stdout=subprocess.PIPE)
        if (done.returncode, done.stdout) != (status, b""):
            bad += 1
            print("%s: status %d and %d bytes, wanted %d and 0" % (words, done.returncode, len(done.stdout), status))
    return bad


def read_by_others(program, folder, side):
    """How many textures of a folder's files a reader refuses."""
    missing = [words[0] for words in READERS if not shutil.which(words[0])]
    if missing:
        raise Missing(f"{' and '.join(missing)} are not installed; tools/setup installs them")
    bad = count = 0
    with tempfile.TemporaryDirectory() as made_in:
        texture = str(Path(made_in) / "texture.tif")
        for path in sorted(path for path in Path(folder).iterdir() if path.is_file()):
            with open(texture, "wb") as out:
                status = subprocess.run([program, str(folder), path.name, str(side)], stdout=out).returncode
            for words in READERS if status == MADE else ():
                count += 1
                done = subprocess.run([*words, texture], stdout=subprocess.PIPE, stderr=subprocess.STDOUT)
                if done.returncode != 0:
                    bad += 1
                    print("%s: %s: %s" % (path.name, words[0], done.stdout.decode(errors="replace")[:200]))
    print(f"textures: {bad} of {count} readings by tiffinfo and oiiotool fail")
    return bad


def requests_on(name, pages):
    """Requests on each level that texcache has of a file: those that it stores, or of one stored level all."""
    levels = len(pages) if len(pages) > 1 else max(pages[0].width, pages[0].height).bit_length()
    wide, high = pages[0].width, pages[0].height
    channels = len(pages[0].texel(0, 0))
    for level in range(levels):
        yield "pixels %d 0 0 %d %d %s" % (level, min(wide, 64), min(high, 64), name)
        yield "pixels %d %d %d 2 2 %s" % (level, wide - 1, high - 1, name)
        yield "tex 20000 50000 %d mirror periodic bilinear %d %s" % (level * 65536, channels, name)
        wide, high = max(1, wide // 2), max(1, high // 2)
    for lod in range(32768, (levels - 1) * 65536, 65536):
        yield "tex 40000 -3000 %d periodic clamp trilinear %d %s" % (lod, channels, name)


def answered(texcache, folder, asked):
    """The answers of texcache to requests, without the lines that close them."""
    words = [texcache, str(folder), "--workers", "1"]
    done = subprocess.run(words, input="".join(it + "\n" for it in asked).encode(), stdout=subprocess.PIPE)
    return done.stdout.decode().splitlines()[:len(asked)]


def compare_answers(texcache, program, folder, side):
    """How many textures of the files of a folder texcache answers differently from the file."""
    bad = asked_in_all = 0
    with tempfile.TemporaryDirectory() as made_in:
        asked = []
        for path in sorted(Path(folder).iterdir()):
            with open(Path(made_in) / path.name, "wb") as out:
                status = subprocess.run([program, str(folder), path.name, str(side)], stdout=out).returncode
            if status == MADE:
                asked.append((path.name, list(requests_on(path.name, pages_of(path.read_bytes())))))
        for name, requests in asked:
            asked_in_all += len(requests)
            got, wanted = answered(texcache, made_in, requests), answered(texcache, folder, requests)
            if got != wanted or len(got) != len(requests):
                bad += 1
                other = (it for it in zip(requests, wanted, got) if it[1] != it[2])
                print("%s: %s" % (name, next(other, "lines are missing")))
    print(f"textures: {bad} of {len(asked)} textures are not answered like their files, {asked_in_all} requests")
    return bad


def add_arguments(parser):
    add_program(parser, "texmake")
    add_program(parser, "texcache", "--texcache")
    parser.add_argument("--folder", type=Path, default=TOP / "crates" / "texcache" / "data", help="its files are tried")
    parser.add_argument("--side", type=int, default=64, help="of a tile; 64 if it is not given")
    parser.add_argument("--readers", action="store_true", help="have libtiff and OpenImageIO read the textures too")
    parser.add_argument("--print", type=Path, metavar="FILE", help="only write the texture of this file")


def run(args):
    if args.print:
        status, texture, _ = wanted(args.print.read_bytes(), args.side)
        sys.stdout.buffer.write(texture)
        return status
    program, texcache = program_of(args, "texmake"), program_of(args, "texcache", "texcache")
    bad = check(program, args.folder, args.side) + check_refusals(program, args.folder)
    bad += compare_answers(texcache, program, args.folder, args.side)
    bad += read_by_others(program, args.folder, args.side) if args.readers else 0
    print(f"textures: {bad} differ")
    return 1 if bad else 0
