#!/usr/bin/env python3
"""What a warm lookup through texcache.h costs, beside OpenImageIO, and the renderer with textures of 1 GB.

    python3 bench/embedded.py [--library FILE] [--folder FOLDER] [--name FILE] [--passes N]
    python3 bench/embedded.py --python               # 4,096 lookups in a call of the Python package, with numpy
    python3 bench/embedded.py --renderer [FOLDER]    # 64 textures of 1.07 GB, made in FOLDER or a folder that goes again

It measures bilinear lookups of three channels within one cell of a file, with 1, 4 and 8 threads, over the library that
./build tex_c makes: on doubles, 64 in a call of texcache_texture_many and single ones, and those in 1/65536 of the
image; and TextureSystem::texture at the same coordinates, if OpenImageIO's headers are installed. A time is the wall
time of all threads together, divided by the lookups of one thread; the least of several passes, alternated between all.
Instructions per lookup come from 200,000 additional lookups. The first line has the load of the machine.
"""
import argparse
import os
import re
import shutil
import subprocess
import sys
import tempfile
import time
from pathlib import Path

TOP = Path(__file__).resolve().parent.parent
RENDERER = TOP / "examples" / "renderer"


def output_of(words):
    return subprocess.run([str(it) for it in words], stdout=subprocess.PIPE, stderr=subprocess.STDOUT, check=True).stdout.decode()


def over(library):
    return ["-lm", "-lpthread"], [library]


def programs(words, made):
    """The programs that time the lookups of texcache and, if it is installed, of OpenImageIO."""
    last, linked = over(words.library)
    own, other = Path(made) / "embedded", Path(made) / "oiio_lookups"
    output_of(["cc", "-std=gnu11", "-O2", f"-I{TOP / 'include'}", "-o", own, TOP / "bench" / "embedded.c", *linked, *last])
    yield from (("64 in a call", own, "many"), ("single", own, "single"), ("1/65536", own, "fixed"))
    try:
        output_of(["c++", "-std=c++17", "-O2", "-o", other, TOP / "bench" / "oiio_lookups.cpp", "-lOpenImageIO", "-lOpenImageIO_Util"])
        yield "OpenImageIO", other, None
    except (subprocess.CalledProcessError, FileNotFoundError):
        print("no OpenImageIO: it is not measured")


def lookups(words):
    with tempfile.TemporaryDirectory() as made:
        found = list(programs(words, made))

        def run(program, kind, threads, count, *before):
            return output_of([*before, program, words.folder, words.name, threads, count, *([kind] if kind else [])])

        for threads in (1, 4, 8):
            least = {}
            for _ in range(words.passes):
                for name, program, kind in found:
                    nanos = float(re.search(r"ns ([\d.]+)", run(program, kind, threads, 2000000)).group(1))
                    least[name] = min(nanos, least.get(name, nanos))
            print(f"{threads} threads, ns a lookup:", ", ".join(f"{name} {it:.1f}" for name, it in least.items()), flush=True)
        if shutil.which("valgrind"):
            for name, program, kind in found:
                counts = []
                for count in (1024, 201024):
                    said = run(program, kind, 1, count, "valgrind", "--tool=callgrind", f"--callgrind-out-file={made}/out")
                    counts.append(int(re.search(r"Collected : (\d+)", said).group(1)))
                print(f"instructions a lookup: {name} {(counts[1] - counts[0]) / 200000:.0f}", flush=True)


IN_PYTHON = """
import sys, time
sys.path.insert(0, sys.argv[1])
import numpy, texcache
with texcache.Cache(sys.argv[2]) as cache, cache.new_pass() as textures:
    file, n = cache.find(sys.argv[3]), numpy.arange(4096)
    s, t = 0.06 + n % 64 / 65536, 0.06 + n // 64 / 65536
    round_ = (s, t, 0 * s + 0.01, 0 * s, 0 * s, 0 * s + 0.01)
    calls = {"points": lambda: textures.texture(file, s, t),
             "points as floats": lambda: textures.texture(file, s, t, floats=True),
             "round footprints": lambda: textures.texture_footprint(file, *round_),
             "one point": lambda: textures.texture(file, 0.06, 0.06)}
    least = dict.fromkeys(calls, 1e9)
    for _ in range(200):
        for name, call in calls.items():
            began = time.perf_counter()
            call()
            least[name] = min(least[name], time.perf_counter() - began)
    each = (f"{name} {1e6 * it / (1 if name == 'one point' else 4096):.3f}" for name, it in least.items())
    print("Python, us a lookup:", ", ".join(each))
"""


def in_python(words):
    with tempfile.TemporaryDirectory() as made:
        last, linked = over(words.library)
        shared = Path(made) / "libtexcache.so"
        output_of(["cc", "-shared", "-o", shared, "-Wl,--whole-archive", *linked, "-Wl,--no-whole-archive", *last])
        os.environ["TEXCACHE_LIBRARY"] = str(shared)
        print(output_of([sys.executable, "-c", IN_PYTHON, TOP / "python", words.folder, words.name]), end="")


def renderer(words, folder):
    with tempfile.TemporaryDirectory() as made:
        folder = folder or Path(made) / "textures"
        if not (folder / "t63.tif").is_file():
            output_of([sys.executable, RENDERER / "textures.py", "many", folder])
        textures = list(folder.glob("*.tif"))
        size = sum(it.stat().st_size for it in textures)
        last, linked = over(words.library)
        program = Path(made) / "renderer"
        output_of(["cc", "-std=gnu11", "-O2", f"-I{TOP / 'include'}", "-o", program, RENDERER / "renderer.c", *linked, *last])
        print(f"{len(textures)} textures of {size} bytes")
        for more in ([], ["--closest"]):
            began = time.monotonic()
            said = output_of([program, folder / "many.scene", Path(made) / "out.ppm", "--threads", 8, "--budget", 1 << 24, "--width",
                              1920, "--height", 1200, *more])
            print(f"1920 by 1200, 8 threads, budget 16 MB {' '.join(more)}: {time.monotonic() - began:.2f} s,", said.strip(),
                  flush=True)


def main():
    asked = argparse.ArgumentParser(description=__doc__, formatter_class=argparse.RawDescriptionHelpFormatter)
    asked.add_argument("--library", type=Path, default=TOP / "crates" / "tex_c" / "out" / "libtexcache.a")
    asked.add_argument("--folder", type=Path, default=TOP / "demo")
    asked.add_argument("--name", default="hills.tif")
    asked.add_argument("--passes", type=int, default=5)
    asked.add_argument("--python", action="store_true")
    asked.add_argument("--renderer", nargs="?", const="", metavar="FOLDER")
    words = asked.parse_args()
    print("load", *(f"{it:.1f}" for it in os.getloadavg()), "on", os.cpu_count(), "processors", flush=True)
    if words.python:
        in_python(words)
    elif words.renderer is None:
        lookups(words)
    else:
        renderer(words, Path(words.renderer) if words.renderer else None)
    return 0


if __name__ == "__main__":
    sys.exit(main())
