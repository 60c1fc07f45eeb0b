"""The images for the tests of tools/prepare.py. Each image is a formula. This package's TIFF writer writes it, or another
program converts such a file; so the right answers of the cache are known without prepare.py."""
import shutil
import struct
import subprocess
import zlib
from collections import namedtuple

from texcheck.common import debian_python, said
from texcheck.plain_reader import Page
from texcheck.tiff import BLACK_IS_ZERO, LITTLE, LONG, NARROW, RGB, SHORT, WHITE_IS_ZERO, Level, laid_out, tiff

WIDTH, HEIGHT = 40, 24
# how far a value of the cache may be from the formula: 1/255 for JPEG and float
EXACT, NEAR = 0, 257

# An image with the name of its texture, its level 0 with 16-bit texels, and how near a value has to be.
Image = namedtuple("Image", "name target page near")


def colour(x, y, channels=3):
    return [(7 * x + 13 * y + 29 * c) % 256 for c in range(channels)]


def as_page(texel, width=WIDTH, height=HEIGHT):
    """A level whose texels have 16 bits."""
    return Page(width, height, 16, BLACK_IS_ZERO, None, texel)


def of_8_bits(x, y):
    return [257 * it for it in colour(x, y)]


def plain(width=WIDTH, height=HEIGHT, depth=8, channels=3):
    """The bytes of a TIFF that the cache accepts."""
    return tiff(LITTLE, [Level(width, height, lambda x, y: colour(x, y, channels), depth, RGB, rows=8, spoken=(284,))])


def noted(fields, stored):
    """The bytes of a TIFF in one strip, with these fields and others as usual."""
    usual = {256: (SHORT, [WIDTH]), 257: (SHORT, [HEIGHT]), 277: (SHORT, [3]), 278: (SHORT, [HEIGHT]), 284: (SHORT, [1])}

    def of(offsets, sizes):
        found = {**usual, 273: (LONG, offsets), 279: (LONG, sizes), **fields}
        return [(tag, *found[tag]) for tag in sorted(found)]

    return laid_out(LITTLE, NARROW, [([stored], None, of)])


def palette():
    """A palette TIFF: 256 colours, and the texel (x, y) is the colour of number x + 40 y mod 256."""
    table = [257 * ((it * step + 5) % 256) for step in (1, 3, 7) for it in range(256)]
    numbers = bytes((x + 40 * y) % 256 for y in range(HEIGHT) for x in range(WIDTH))
    data = noted({258: (SHORT, [8]), 259: (SHORT, [1]), 262: (SHORT, [3]), 277: (SHORT, [1]), 320: (SHORT, table)}, numbers)
    return data, lambda x, y: [table[256 * c + (x + 40 * y) % 256] for c in range(3)]


def share(x, y, channel):
    """The value of a float image; some are below 0 and above 1."""
    return (x + 2 * y + 5 * channel) / 80 - 0.1


def floats():
    stored = struct.pack(f"<{WIDTH * HEIGHT * 3}f",
                         *(share(x, y, c) for y in range(HEIGHT) for x in range(WIDTH) for c in range(3)))
    data = noted({258: (SHORT, [32] * 3), 259: (SHORT, [1]), 262: (SHORT, [RGB]), 339: (SHORT, [3] * 3)}, stored)
    return data, lambda x, y: [round(65535 * min(1, max(0, share(x, y, c)))) for c in range(3)]


def png(channels=3):
    """A PNG with channels of 8 bits; the fourth is its alpha, which is not multiplied in."""
    def chunk(kind, data):
        return struct.pack(">I", len(data)) + kind + data + struct.pack(">I", zlib.crc32(kind + data))
    rows = b"".join(b"\0" + bytes(it for x in range(WIDTH) for it in colour(x, y, channels)) for y in range(HEIGHT))
    head = struct.pack(">IIBBBBB", WIDTH, HEIGHT, 8, {3: 2, 4: 6}[channels], 0, 0, 0)
    return b"\x89PNG\r\n\x1a\n" + chunk(b"IHDR", head) + chunk(b"IDAT", zlib.compress(rows)) + chunk(b"IEND", b"")


def cmyk():
    """A CMYK TIFF without a profile: red is (1 - cyan) (1 - black), and so on."""
    stored = bytes(it for y in range(HEIGHT) for x in range(WIDTH) for it in colour(x, y, 4))
    data = noted({258: (SHORT, [8] * 4), 259: (SHORT, [1]), 262: (SHORT, [5]), 277: (SHORT, [4])}, stored)

    def texel(x, y):
        *inks, black = colour(x, y, 4)
        return [round(257 * (255 - it) * (255 - black) / 255) for it in inks]

    return data, texel


def white():
    """A TIFF of 16 bits in which 0 is white."""
    return tiff(LITTLE, [Level(WIDTH, HEIGHT, lambda x, y: [1000 * x + y], 16, WHITE_IS_ZERO, rows=8)])


def write_cropped(folder):
    """An EXR whose pixels are a part of what it displays; the rest is black."""
    written("oiiotool", folder / "floats.tif", "--crop", "20x10+5+6", "-d", "half", "-o", folder / "cropped.exr")
    of_floats = floats()[1]
    return Image("cropped.exr", "cropped.tif",
                 as_page(lambda x, y: of_floats(x, y) if 5 <= x < 25 and 6 <= y < 16 else [0, 0, 0]), NEAR)


def pillow_texel(path):
    """The texels of an image of 8 bits as Pillow reads it."""
    code = "import sys; from PIL import Image; sys.stdout.buffer.write(Image.open(sys.argv[1]).convert('RGB').tobytes())"
    data = subprocess.run([debian_python(), "-c", code, path], stdout=subprocess.PIPE, check=True).stdout
    return lambda x, y: [257 * it for it in data[3 * (y * WIDTH + x):][:3]]


def missing():
    """What is needed to write or read the images and not installed; None if everything is installed."""
    for it in ("oiiotool", "tiffcp"):
        if not shutil.which(it):
            return it
    return None if said([debian_python(), "-c", "import PIL, tifffile, numpy"])[0] == 0 else "Python's Pillow or tifffile"


def written(*words):
    status, text = said(words)
    if status:
        raise RuntimeError(f"{words[0]}: {text[-300:]}")


def write_images(folder):
    """Writes one image of each kind, and a broken one. The folder gets a subfolder with a UDIM set."""
    sub = folder / "sub dir"
    sub.mkdir(parents=True)
    (folder / "plain.tif").write_bytes(plain())
    (folder / "white.tif").write_bytes(white())
    (folder / "a.png").write_bytes(png())
    (folder / "alpha.png").write_bytes(png(4))
    inks, of_inks = cmyk()
    (folder / "inks.tif").write_bytes(inks)
    (folder / "broken.png").write_bytes(png()[:-40])
    colours, of_palette = palette()
    (folder / "palette.tif").write_bytes(colours)
    data, of_floats = floats()
    (folder / "floats.tif").write_bytes(data)
    written("oiiotool", folder / "floats.tif", "-d", "half", "-o", folder / "half.exr")
    written("oiiotool", folder / "a.png", "--compression", "jpeg:90", "-o", folder / "photo.jpg")
    written("tiffcp", "-c", "lzw", folder / "plain.tif", folder / "lzw.TIFF")
    for number in (1001, 1002, 1011):
        (sub / f"wall.{number}.tif").write_bytes(plain())
    # one tile that differs
    (sub / "wall.1012.tif").write_bytes(plain(WIDTH // 2, HEIGHT))
    (sub / "-notes on it.txt").write_text("no image")
    eight = as_page(of_8_bits)
    alpha = as_page(lambda x, y: [257 * it for it in colour(x, y, 4)])
    return [Image("a.png", "a.tif", eight, EXACT), Image("alpha.png", "alpha.tif", alpha, EXACT),
            Image("inks.tif", "inks.tif", as_page(of_inks), NEAR), Image("lzw.TIFF", "lzw.TIFF", eight, EXACT),
            Image("palette.tif", "palette.tif", as_page(of_palette), EXACT),
            Image("floats.tif", "floats.tif", as_page(of_floats), NEAR),
            Image("half.exr", "half.tif", as_page(of_floats), NEAR),
            Image("photo.jpg", "photo.tif", as_page(pillow_texel(folder / "photo.jpg")), NEAR)]


# The files that the cache accepts, whose textures keep 8 bits.
ACCEPTED = ["plain.tif", "white.tif", *(f"sub dir/wall.{it}.tif" for it in (1001, 1002, 1011, 1012))]


def write_large(path, side=8192):
    """An RGB image of 8 bits with more samples than texmake reads, in strips of 64 rows: row y is row 0, moved by y, so
    texel (x, y) has the samples (3 (x + y) + c) mod 256."""
    around = bytes(it % 256 for it in range(3 * side + 768))
    rows = [around[3 * y % 256:][:3 * side] for y in range(256)]
    strips = [b"".join(rows[y % 256] for y in range(top, top + 64)) for top in range(0, side, 64)]

    def of(offsets, sizes):
        return [(256, SHORT, [side]), (257, SHORT, [side]), (258, SHORT, [8] * 3), (259, SHORT, [1]), (262, SHORT, [RGB]),
                (273, LONG, offsets), (277, SHORT, [3]), (278, SHORT, [64]), (279, LONG, sizes), (284, SHORT, [1])]

    path.write_bytes(laid_out(LITTLE, NARROW, [(strips, None, of)]))


def large_sample(x, y, channel):
    return (3 * (x + y) + channel) % 256
