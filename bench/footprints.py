#!/usr/bin/env python3
"""Lookups on doubles and over footprints beside OpenImageIO, through the C library.

    python3 bench/footprints.py                # all of it, without the pictures
    python3 bench/footprints.py contrasts      # one part
    python3 bench/footprints.py pictures --write    # the pictures of docs/FILTERING.md

magnified: a close view of a texture of 8192 texels. ramp: a slow zoom. contrasts: how much of noise and stripes is left
by footprints of one shape, whose pixel grid is turned. jumps: the greatest change of a value from frame to frame while
a footprint changes slowly. planes: the error of planes in perspective. times: a warm footprint. check: the first four,
shorter and of texcache alone, beside limits.
It needs libopenimageio-dev, openimageio-tools and numpy.
"""
import argparse
import os
import subprocess
import sys
import tempfile
from pathlib import Path

TOP = Path(__file__).resolve().parent.parent
PARTS = ("magnified", "ramp", "contrasts", "jumps", "planes", "times")


def said(*words):
    done = subprocess.run([str(it) for it in words], stdout=subprocess.PIPE, stderr=subprocess.STDOUT, check=False)
    if done.returncode:
        sys.exit(f"footprints: {words[0]}: {done.stdout.decode()[-2000:]}")
    return done.stdout.decode()


def textures(folder):
    """Writes the textures, with levels by OpenImageIO's maketx, which both read."""
    import numpy
    drawn = numpy.random.default_rng(1)
    y, x = numpy.mgrid[0:1024, 0:1024]
    wide = numpy.mgrid[0:512, 0:8192][1]
    images = {
        "noise": (255 * drawn.integers(0, 2, (1024, 1024))).astype(numpy.uint8),
        "stripes": (127.5 + 127.5 * numpy.sin(numpy.pi / 2 * (x + 0.5))).round().astype(numpy.uint8),
        "checker": (235 - 215 * ((x // 64 + y // 64) % 2)).astype(numpy.uint8),
        "zone": (127.5 + 127.5 * numpy.cos(numpy.pi / 1024 * ((x - 511.5) ** 2 + (y - 511.5) ** 2))).round().astype(numpy.uint8),
        "wide": drawn.integers(0, 256, (512, 8192)).astype(numpy.uint8),
        "ramp": numpy.minimum(2048 * numpy.minimum(wide % 64, 63 - wide % 64), 65535).astype(numpy.uint16),
        "rgb": drawn.integers(0, 256, (1024, 1024, 3)).astype(numpy.uint8),
    }
    for name, image in images.items():
        kind, depth = ("P6" if image.ndim == 3 else "P5"), 255 if image.dtype == numpy.uint8 else 65535
        source = folder / f"{name}.{'ppm' if image.ndim == 3 else 'pgm'}"
        source.write_bytes(f"{kind}\n{image.shape[1]} {image.shape[0]}\n{depth}\n".encode()
                           + image.astype(f">u{image.dtype.itemsize}").tobytes())
        said("maketx", "--nchannels", 3 if image.ndim == 3 else 1, "-d", "uint8" if depth == 255 else "uint16",
             "--compression", "none", "--format", "tiff", "--filter", "box", "-o", folder / f"{name}.tif", source)
        source.unlink()


def build(library, made):
    found = said("pkg-config", "--cflags", "--libs", "OpenImageIO").split()
    said("c++", "-std=c++17", "-O2", "-Wall", "-Wextra", f"-I{TOP / 'include'}", "-o", made / "oiio_footprints",
         TOP / "bench" / "oiio_footprints.cpp", library, *found, "-lpthread")
    return made / "oiio_footprints"


def pictures(folder, program, to):
    """The close views and the planes, three side by side: in 1/65536, on doubles, OpenImageIO."""
    said(program, folder, "pictures")
    for name in ("close", "plane"):
        three = [folder / f"{name}_{it}.pgm" for it in ("before", "after", "oiio")]
        said("oiiotool", *three, "--mosaic:pad=4", "3x1", "-d", "uint8", "-o", to / f"{name}_views.png")


def main():
    asked = argparse.ArgumentParser(description=__doc__, formatter_class=argparse.RawDescriptionHelpFormatter,
                                    allow_abbrev=False)
    asked.add_argument("parts", nargs="*", metavar="PART", help=f"{', '.join(PARTS)}; check; or pictures, with --write")
    asked.add_argument("--library", type=Path, default=TOP / "crates" / "tex_c" / "out" / "libtexcache.a",
                       help="the library; crates/tex_c/out/libtexcache.a if it is not given")
    asked.add_argument("--write", action="store_true", help="write docs/pictures/close_views.png and plane_views.png")
    words = asked.parse_args()
    parts = words.parts or PARTS
    if set(parts) - {*PARTS, "check", "pictures"} or ("pictures" in parts) != words.write:
        asked.error(f"parts are {', '.join(PARTS)}, check, and pictures with --write")
    if not words.library.is_file():
        sys.exit(f"footprints: there is no {words.library}; ./build tex_c makes it")
    print("load", *(f"{it:.1f}" for it in os.getloadavg()), "on", os.cpu_count(), "processors;", words.library, flush=True)
    with tempfile.TemporaryDirectory() as made:
        folder = Path(made) / "textures"
        folder.mkdir()
        textures(folder)
        program = build(words.library, Path(made))
        for part in parts:
            if part == "pictures":
                pictures(folder, program, TOP / "docs" / "pictures")
            else:
                print(said(program, folder, part), end="", flush=True)
    return 0


if __name__ == "__main__":
    sys.exit(main())
