#!/usr/bin/env python3
"""Bakes a texture onto a shape, into new textures in tiles with all levels: one for each UDIM tile of the shape's UVs.

The image is projected along z onto a plane, a cylinder, or the mesh of an OBJ file, and is seen from the front. Each
texel of an output is one lookup over its footprint. README.md says more.
"""
import argparse
import os
import re
import shlex
import shutil
import struct
import subprocess
import sys
import tempfile
from concurrent.futures import ThreadPoolExecutor
from pathlib import Path

HERE = Path(__file__).resolve()
sys.path[:0] = [str(HERE.parent), str(HERE.parents[2] / "python")]
try:
    import numpy
    import texcache
    from shapes import Mesh, Surface
except ImportError as error:
    numpy, LACKING = None, error
ROWS, TRIES = 32, 4    # the rows of a batch; how often a tile begins again if its image is replaced

def batch(cache, file, shape, args, tile, top, out):
    """Fills some rows of a tile; returns the generation of the image that they were read from, 0 if they are empty."""
    size, (row, column) = args.size, divmod(tile - 1001, 10)
    u, v = numpy.meshgrid(column + (numpy.arange(size) + 0.5) / size,
                          row + 1 - (numpy.arange(top, min(top + ROWS, size)) + 0.5) / size)
    triangle = shape.triangles(u, v)
    inside = triangle >= 0
    u, v, triangle = u[inside], v[inside], triangle[inside]
    if not len(u):
        return 0
    # the footprint of a texel: where the texels to its right and below it would be on the same triangle
    (s, t), right, below = (numpy.array(shape.seen(*at, triangle)) * args.repeat
                            for at in ((u, v), (u + 1 / size, v), (u, v - 1 / size)))
    textures = cache.this_thread()
    out[top:top + ROWS][inside] = textures.texture_footprint(file, s, t, right[0] - s, right[1] - t, below[0] - s,
                                                             below[1] - t, channels=out.shape[2])
    return textures.answer.generation


def plain(values):
    """A TIFF of one level and one strip, little-endian."""
    rows, columns, channels = values.shape
    data, bits = values.tobytes(), 8 * values.itemsize
    fields = [(256, 4, columns), (257, 4, rows), (258, 3, bits), (259, 3, 1), (262, 3, 2 if channels > 2 else 1),
              (273, 4, 8), (277, 3, channels), (278, 4, rows), (279, 4, len(data))]
    at = 8 + len(data) + len(data) % 2
    lists = {258: struct.pack(f"<{channels}H", *[bits] * channels)} if channels > 2 else {}
    if channels == 2:
        fields[2] = (258, 3, bits | bits << 16)
    end = at + 6 + 12 * len(fields)
    entries = b"".join(struct.pack("<HHII", tag, kind, channels if tag == 258 else 1, end if tag in lists else value)
                       for tag, kind, value in fields)
    return b"".join((struct.pack("<2sHI", b"II", 42, at), data, b"\0" * (len(data) % 2), struct.pack("<H", len(fields)),
                     entries, bytes(4), *lists.values()))


def bake(cache, pool, shape, args, tile, told):
    """Bakes a tile. Its file appears when it is whole, by texmake."""
    file = cache.find(args.image)
    info = cache.this_thread().info(file)
    tops = range(0, args.size, ROWS)
    for _ in range(TRIES):
        out, generations = numpy.zeros((args.size, args.size, info.channels), "<u2"), set()
        for count, it in enumerate(pool.map(lambda top: batch(cache, file, shape, args, tile, top, out), tops), 1):
            generations.add(it)
            told(count / len(tops))
        if len(generations - {0}) <= 1:
            break
    else:
        raise SystemExit(f"bake.py: {args.image} was replaced each time")
    with tempfile.TemporaryDirectory(prefix=".bake-", dir=args.out) as room:
        narrow = ((out.astype("<u4") + 128) // 257).astype("u1") if info.depth == 8 else out
        (Path(room) / "plain.tif").write_bytes(plain(narrow))
        with open(f"{room}/whole.tif", "wb") as whole:
            subprocess.run([args.texmake, room, "plain.tif"], stdout=whole, check=True)
        os.replace(whole.name, args.out / args.name.format(tile))


def arguments():
    parser = argparse.ArgumentParser(description=__doc__, formatter_class=argparse.RawDescriptionHelpFormatter)
    parser.add_argument("folder", type=Path, help="the folder of the image")
    parser.add_argument("image", help="the name of the image in it")
    parser.add_argument("shape", help="plane, cylinder, or an OBJ file")
    parser.add_argument("out", type=Path, help="the folder for the textures")
    parser.add_argument("--size", type=int, default=1024, help="the side of a texture; usually 1024")
    parser.add_argument("--repeat", type=float, default=1.0, help="how often the image is repeated; usually once")
    parser.add_argument("--udims", default="1x1", help="of a plane or a cylinder: its UDIM tiles, as 2x1")
    parser.add_argument("--only", type=int, help="only this UDIM tile")
    parser.add_argument("--jobs", type=int, default=min(14, os.cpu_count() or 1), help="threads, at most 14")
    parser.add_argument("--budget", type=int, default=256, help="megabytes for tiles; usually 256")
    parser.add_argument("--list", action="store_true", help="print a command for each texture to make, and make none")
    parser.add_argument("--texmake", default=shutil.which("texmake") or HERE.parents[2] / "texmake")
    args = parser.parse_args()
    if not re.fullmatch("[1-9][0-9]*x[1-9][0-9]*", args.udims):
        parser.error(f"--udims is {args.udims}, and may be as 2x1")
    for name, low, high in (("size", 1, 32768), ("jobs", 1, 14), ("budget", 0, 4095)):
        if not low <= getattr(args, name) <= high:
            parser.error(f"--{name} is {getattr(args, name)}, and may be {low} to {high}")
    args.name = f"{Path(args.image).stem}.{{}}.tif"
    return args


def command(args, tile):
    """The command for one tile, with absolute paths: it can run in any folder, on any host."""
    shape = args.shape if args.shape in ("plane", "cylinder") else os.path.abspath(args.shape)
    words = [sys.executable, HERE, args.folder.resolve(), args.image, shape, args.out.resolve(), "--only", tile]
    for name in ("size", "repeat", "udims", "jobs", "budget", "texmake"):
        words += [f"--{name}", getattr(args, name)]
    return shlex.join(map(str, words))


def run(args):
    is_mesh = args.shape not in ("plane", "cylinder")
    shape = Mesh(args.shape) if is_mesh else Surface(args.shape, *map(int, args.udims.split("x")))
    args.out.mkdir(parents=True, exist_ok=True)
    tiles = [it for it in shape.tiles if args.only in (None, it)]
    left = [it for it in tiles if not (args.out / args.name.format(it)).exists()]
    if args.list:
        for it in left:
            print(command(args, it))
        return 0
    done, show = len(tiles) - len(left), sys.stderr.isatty()
    try:
        with texcache.Cache(args.folder, budget=args.budget << 20, passes=16) as cache, \
                ThreadPoolExecutor(args.jobs) as pool:
            for tile in left:
                bake(cache, pool, shape, args, tile, lambda part, it=tile: show and print(
                    f"\rtile {it}: {100 * part:3.0f}%; {done} of {len(tiles)} are there ", end="", file=sys.stderr, flush=True))
                done += 1
    except KeyboardInterrupt:
        print(f"\nbake.py: {done} of {len(tiles)} tiles are there; the same command makes the others", file=sys.stderr)
        return 130
    print(f"{done} of {len(tiles)} tiles are there", file=sys.stderr)
    return 0


def main():
    args = arguments()
    if numpy is None:
        raise SystemExit(f"bake.py: {LACKING}")
    try:
        return run(args)
    except (texcache.Refused, OSError, ValueError, subprocess.CalledProcessError) as error:
        raise SystemExit(f"bake.py: {error}") from None


if __name__ == "__main__":
    sys.exit(main())
