#!/usr/bin/env python3
"""What a warm bilinear lookup of three channels costs through C, the bridge and Python, beside OpenImageIO's calls.

    python3 bench/calls.py [--library FILE] [--passes N] [--lookups N]

The texture is 1024 by 1024 texels in tiles of 64 by 64, all of it in the cache. The lists are two: all texels of 48 rows
from left to right, as the benchmark's row "warm, in scan order", and random places. The UDIM set has two such textures;
in scan order rows take turns with them, and at random places each lookup is in either. Kinds take turns, and the least
of the passes counts. A time is processor time, which other work on the machine disturbs less than the clock; where perf or
valgrind can count instructions, these are printed too. A ratio is OpenImageIO's time over ours. The first lines have the
library, its version and the load of the machine: an unproved build keeps its checks at run time and is slower.
"""
import argparse
import os
import random
import re
import shutil
import subprocess
import sys
import tempfile
from pathlib import Path

TOP = Path(__file__).resolve().parent.parent
sys.path.insert(0, str(TOP / "tools"))
SIDE = 1024
ONE, UDIM = "t.tif", "t.<UDIM>.tif"
# what is measured: a name, the program, the texture, the kind, what of OpenImageIO it is compared with, and the aim
KINDS = [("OpenImageIO, one call", "oiio", ONE, "call", None, None),
         ("OpenImageIO, batch of 16", "oiio", ONE, "batch", None, None),
         ("OpenImageIO, UDIM, one call", "oiio", UDIM, "call", None, None),
         ("C, one call", "ours", ONE, "c", "OpenImageIO, one call", 3),
         ("C, 64 in a call", "ours", ONE, "many", "OpenImageIO, one call", 4),
         ("C, 64 in a call, floats", "ours", ONE, "floats", "OpenImageIO, one call", 4),
         ("C, UDIM, one call", "ours", UDIM, "c", "OpenImageIO, UDIM, one call", None),
         ("C, UDIM, 64 in a call", "ours", UDIM, "many", "OpenImageIO, UDIM, one call", None),
         ("bridge, one call", "ours", ONE, "call", "OpenImageIO, one call", None),
         ("bridge, batch of 64", "ours", ONE, "batch", "OpenImageIO, batch of 16", None),
         ("bridge, UDIM, one call", "ours", UDIM, "call", "OpenImageIO, UDIM, one call", None)]
IN_PYTHON = """
import sys, time
import numpy, texcache
with texcache.Cache(sys.argv[1]) as cache:
    textures, file = cache.this_thread(), cache.find(sys.argv[2])
    n = numpy.arange(4096)
    s, t = (n % 1024 + 0.78) / 1024, (5 + n // 1024 * 21 + 0.78) / 1024
    out, floats = numpy.empty((4096, 3), numpy.uint16), numpy.empty((4096, 3), numpy.float32)
    how = {"swrap": texcache.CLAMP, "twrap": texcache.CLAMP}
    calls = {"uint16": lambda: textures.texture(file, s, t, **how), "floats": lambda: textures.texture(file, s, t, floats=True, **how),
             "uint16 into out": lambda: textures.texture(file, s, t, out=out, **how),
             "floats into out": lambda: textures.texture(file, s, t, out=floats, **how),
             "one lookup": lambda: textures.texture(file, 0.5, 0.5, **how)}
    least = dict.fromkeys(calls, 1e9)
    for _ in range(int(sys.argv[3])):
        for name, call in calls.items():
            began = time.process_time_ns()
            for _ in range(20):
                call()
            least[name] = min(least[name], (time.process_time_ns() - began) / 20000)
    for name, it in least.items():
        print(f"Python, {name}{'' if name == 'one lookup' else ' of 4,096'}: {it / (1 if name == 'one lookup' else 4096):.3f} us a lookup")
"""


def said(*words, **more):
    done = subprocess.run([str(it) for it in words], stdout=subprocess.PIPE, stderr=subprocess.STDOUT, check=False, **more)
    if done.returncode:
        sys.exit(f"calls: {words[0]}: {done.stdout.decode()[-2000:]}")
    return done.stdout.decode()


def texture(folder):
    """A texture of noise, with its levels by maketx, and a UDIM set that has it twice."""
    source = folder / "t.ppm"
    source.write_bytes(f"P6\n{SIDE} {SIDE}\n255\n".encode() + random.Random(1).randbytes(3 * SIDE * SIDE))
    said("maketx", "-d", "uint8", "--compression", "none", "--format", "tiff", "--tile", 64, 64, "-o", folder / "t.tif", source)
    source.unlink()
    for tile in (1001, 1002):
        shutil.copy(folder / "t.tif", folder / f"t.{tile}.tif")


def programs(library, made):
    """The two programs; that of OpenImageIO is None if its headers are not installed."""
    source, flags = TOP / "bench" / "calls.cpp", ["-std=c++17", "-O2", "-DNDEBUG"]
    said("c++", *flags, f"-I{TOP / 'include'}", "-o", made / "ours", source, library, "-lm", "-lpthread")
    words = ["c++", *flags, "-DUSE_OIIO", "-o", made / "oiio", source, "-lOpenImageIO", "-lOpenImageIO_Util", "-lpthread"]
    done = subprocess.run([str(it) for it in words], stdout=subprocess.DEVNULL, stderr=subprocess.DEVNULL, check=False)
    if done.returncode:
        print("OpenImageIO's headers are not installed: it is not measured")
    return {"ours": made / "ours", "oiio": None if done.returncode else made / "oiio"}


def instructions(made, words):
    """Instructions of a lookup, by 49,152 and three times as many; None if nothing can count them."""
    counts = []
    for lookups in (49152, 3 * 49152):
        ran = subprocess.run(["perf", "stat", "-x,", "-e", "instructions:u", *words, str(lookups)], stdout=subprocess.PIPE,
                             stderr=subprocess.STDOUT, check=False) if shutil.which("perf") else None
        found = re.search(r"^(\d+),", ran.stdout.decode(), re.M) if ran else None
        if not found and shutil.which("valgrind"):
            text = said("valgrind", "--tool=callgrind", f"--callgrind-out-file={made / 'counts'}", *words, lookups)
            found = re.search(r"Collected : (\d+)", text)
        if not found:
            return None
        counts.append(int(found[1]))
    return (counts[1] - counts[0]) / (2 * 49152)


def measure(args, made, folder, which):
    kinds = [it for it in KINDS if which[it[1]]]
    for kind in ("scan", "random"):
        least, sums = {}, set()
        for _ in range(args.passes):
            for name, program, image, call, _, _ in kinds:
                text = said(which[program], folder, image, call, kind, args.lookups)
                least[name] = min(float(re.search(r"ns ([\d.]+)", text)[1]), least.get(name, 1e9))
                sums.add(round(float(re.search(r"sum ([\d.]+)", text)[1])))
        print(f"{kind}: sums {sorted(sums)}")
        for name, program, image, call, beside, aim in kinds:
            words = [str(it) for it in (which[program], folder, image, call, kind)]
            count = instructions(made, words) if not args.no_instructions else None
            more = f", {count:.0f} instructions" if count else ""
            if beside in least:
                more += f"; ratio {least[beside] / least[name]:.2f}" + (f" (aim {aim})" if aim else "")
            print(f"  {name}: {least[name]:.1f} ns{more}", flush=True)


def in_python(args, made, folder):
    from texcheck.common import debian_python
    from texcheck.tree import shared
    shared(args.library, made / "libtexcache.so")
    environment = {**os.environ, "TEXCACHE_LIBRARY": str(made / "libtexcache.so"), "PYTHONPATH": str(TOP / "python")}
    print(said(debian_python(), "-c", IN_PYTHON, folder, "t.tif", 10 * args.passes, env=environment), end="")
    print("  (aim: below 0.3 us in batches of 4,096)")


def main():
    parser = argparse.ArgumentParser(description=__doc__, formatter_class=argparse.RawDescriptionHelpFormatter,
                                     allow_abbrev=False)
    parser.add_argument("--library", type=Path, help="the library; else the proved one if it is up to date, or an unproved build")
    parser.add_argument("--passes", type=int, default=5)
    parser.add_argument("--lookups", type=int, default=2000000)
    parser.add_argument("--no-instructions", action="store_true", help="count no instructions, which takes some minutes")
    args = parser.parse_args()
    from texcheck.archive import archive_of
    if args.library and not args.library.is_file():
        sys.exit(f"calls: there is no {args.library}")
    args.library = archive_of(args.library)
    print("load", *(f"{it:.1f}" for it in os.getloadavg()), "on", os.cpu_count(), "processors;", args.library, flush=True)
    with tempfile.TemporaryDirectory() as made:
        made, folder = Path(made), Path(made) / "textures"
        folder.mkdir()
        texture(folder)
        measure(args, made, folder, programs(args.library, made))
        in_python(args, made, folder)
    return 0


if __name__ == "__main__":
    sys.exit(main())
