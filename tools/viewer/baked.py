#!/usr/bin/env python3
"""What examples/baker/bake.py bakes, beside formulas. `tools/check baker` runs it with Debian's Python."""
import argparse
import os
import signal
import subprocess
import sys
import tempfile
import time
from pathlib import Path

TOP = Path(__file__).resolve().parents[2]
sys.path[:0] = [str(TOP / "tools"), str(Path(__file__).resolve().parent)]
BAKE = TOP / "examples" / "baker" / "bake.py"
SIDE = 1024
# two quads in two UDIM tiles; the second one is turned by a quarter, and a triangle lies in neither's way
MESH = """v 0 0 0
v 2 0 0
v 2 1 5
v 0 1 0
v 4 0 0
v 4 1 0
vt 0.1 0.1
vt 0.9 0.1
vt 0.9 0.9
vt 0.1 0.9
vt 1.2 0.8
vt 1.2 0.2
vt 1.8 0.2
vt 1.8 0.8
f 1/1 2/2 3/3 4/4
f 2/5 5/6 6/7 3/8
"""


class Tests:
    """The tests, in a temporary folder, and how many passed and failed."""

    def __init__(self, room, texmake):
        from served import Formula
        self.room, self.texmake, self.passed, self.failed = room, texmake, 0, 0
        self.images = room / "images"
        self.images.mkdir()

        class Ramp(Formula):
            """Channel 0 grows across, channel 1 downward, and channel 2 is the same everywhere."""

            def samples(self, level, x, y, w, h):
                import numpy
                found = numpy.full((h, w, 3), 12345)
                half = (2 ** level - 1) / 2
                found[:, :, 0] = 60 * (numpy.arange(x, x + w)[None, :] * 2 ** level + half)
                found[:, :, 1] = 60 * (numpy.arange(y, y + h)[:, None] * 2 ** level + half)
                return found

        class Chequer(Formula):
            """Texels of 0 and 200 in turn."""

            def samples(self, level, x, y, w, h):
                import numpy
                both = numpy.add.outer(numpy.arange(y, y + h), numpy.arange(x, x + w)) % 2 * 200
                return numpy.repeat((both if level == 0 else numpy.full((h, w), 100))[:, :, None], self.channels, axis=2)

        Ramp("ramp.tif", SIDE, SIDE, 3, 16, 64).write(self.images)
        Chequer("chequer.tif", SIDE, SIDE, 1, 8, 64).write(self.images)
        Chequer("two.tif", SIDE, SIDE, 2, 8, 64).write(self.images)
        (room / "mesh.obj").write_text(MESH)

    def say(self, is_so, what, more=""):
        self.passed += bool(is_so)
        self.failed += not is_so
        print(f"{'passed' if is_so else 'failed'}: {what}{'' if is_so else ': ' + str(more)[-2000:]}", flush=True)

    def words(self, image, shape, out, *more):
        return [sys.executable, BAKE, self.images, image, shape, self.room / out, "--texmake", self.texmake, *map(str, more)]

    def bake(self, *words):
        """Bakes; returns the folder of the textures and what was printed."""
        ran = subprocess.run(self.words(*words), capture_output=True, text=True, check=False)
        self.say(ran.returncode == 0 and "Traceback" not in ran.stderr, f"bake.py {' '.join(map(str, words))}".replace(str(self.room), ""), ran)
        return self.room / words[2], ran.stdout + ran.stderr

    @staticmethod
    def values(folder, name, level=0):
        """The values of a level, and the file's facts."""
        import texcache
        with texcache.Cache(folder) as cache:
            textures, file = cache.this_thread(), cache.find(name)
            info = textures.info(file)
            return textures.pixels(file, level, 0, 0, max(1, info.width >> level), max(1, info.height >> level)), info

    def is_ramp(self, found, s, t, margin=0.02):
        """The largest difference from the ramp where s and t are away from the border of the image."""
        import numpy
        inside = (s > margin) & (s < 1 - margin) & (t > margin) & (t < 1 - margin)
        wanted = [60 * (SIDE * it - 0.5) for it in (s, t)]
        gaps = [abs(found[:, :, it].astype(float) - wanted[it])[inside].max() for it in (0, 1)]
        flat = abs(found[:, :, 2].astype(float) - 12345)[inside].max()
        return inside.sum() > 0.5 * inside.size and numpy.max([*gaps, flat]) <= 40, (gaps, flat, inside.mean())


def grid(size):
    import numpy
    place = (numpy.arange(size) + 0.5) / size
    return numpy.meshgrid(place, 1 - place)


def plane(tests):
    out, _ = tests.bake("ramp.tif", "plane", "plane", "--size", 256)
    u, v = grid(256)
    found, info = tests.values(out, "ramp.1001.tif")
    tests.say(*[(it[0], "a plane is as the formula says", it[1]) for it in [tests.is_ramp(found, u, 1 - v)]][0])
    tests.say((info.width, info.channels, info.depth, info.stored, info.levels) == (256, 3, 16, 9, 9),
              "the result has the depth of the image and stores all levels", info)
    levels = [tests.values(out, "ramp.1001.tif", it)[0].astype(float) for it in (0, 1)]
    mean = levels[0].reshape(128, 2, 128, 2, 3).mean(axis=(1, 3))
    tests.say(abs(levels[1] - mean).max() <= 1, "level 1 has the means of level 0")
    out, _ = tests.bake("ramp.tif", "plane", "udims", "--size", 128, "--udims", "2x2")
    u, v = grid(128)
    for tile in (1001, 1002, 1011, 1012):
        s, t = ((tile - 1001) % 10 + u) / 2, 1 - ((tile - 1001) // 10 + v) / 2
        is_so, more = tests.is_ramp(tests.values(out, f"ramp.{tile}.tif")[0], s, t)
        tests.say(is_so, f"UDIM tile {tile}", more)


def cylinder(tests):
    import numpy
    out, _ = tests.bake("ramp.tif", "cylinder", "cylinder", "--size", 512)
    u, v = grid(512)
    is_so, more = tests.is_ramp(tests.values(out, "ramp.1001.tif")[0], (1 - numpy.cos(2 * numpy.pi * u)) / 2, 1 - v)
    tests.say(is_so, "a cylinder is as the formula says", more)


def mesh(tests):
    out, _ = tests.bake("ramp.tif", tests.room / "mesh.obj", "mesh", "--size", 256)
    u, v = grid(256)
    found, _ = tests.values(out, "ramp.1001.tif")
    inside = (u > 0.1) & (u < 0.9) & (v > 0.1) & (v < 0.9)
    # the first quad has x from 0 to 2 of 4
    is_so, more = tests.is_ramp(found[inside].reshape(*shape_of(inside), 3), ((u - 0.1) / 0.8 / 2)[inside].reshape(shape_of(inside)),
                                (1 - (v - 0.1) / 0.8)[inside].reshape(shape_of(inside)))
    tests.say(is_so, "the first quad of a mesh", more)
    tests.say((found[~inside] == 0).all(), "outside its UVs all is 0")
    found, _ = tests.values(out, "ramp.1002.tif")
    inside = (u > 0.2) & (u < 0.8) & (v > 0.2) & (v < 0.8)
    # the second is turned: x grows downward, y grows to the right
    s, t = 0.5 + (0.8 - v) / 0.6 / 2, 1 - (u - 0.2) / 0.6
    size = shape_of(inside)
    is_so, more = tests.is_ramp(found[inside].reshape(*size, 3), s[inside].reshape(size), t[inside].reshape(size))
    tests.say(is_so, "the second, which is turned, in its own UDIM tile", more)
    tests.say(sorted(it.name for it in out.iterdir()) == ["ramp.1001.tif", "ramp.1002.tif"], "nothing else is left", list(out.iterdir()))


def shape_of(inside):
    return int(inside.any(axis=1).sum()), int(inside.any(axis=0).sum())


def footprints(tests):
    out, _ = tests.bake("chequer.tif", "plane", "chequer", "--size", 64)
    found, info = tests.values(out, "chequer.1001.tif")
    tests.say(abs(found.astype(int) // 257 - 100).max() <= 2 and info.depth == 8, "a fine chequer is grey", (found.min(), found.max(), info))
    out, _ = tests.bake("two.tif", "plane", "two", "--size", 64, "--repeat", 3)
    found, info = tests.values(out, "two.1001.tif")
    tests.say(info.channels == 2 and abs(found.astype(int) // 257 - 100).max() <= 2, "two channels", (info, found.max()))


def stopping(tests):
    """A texmake that makes one texture, and waits at the next: a run can be interrupted there, however fast it is."""
    script = tests.room / "stopping"
    script.write_text(f"""#!/bin/sh
if [ -e '{tests.room}/made' ]; then touch '{tests.room}/waits'; exec sleep 600; fi
touch '{tests.room}/made'
exec '{tests.texmake.resolve()}' "$@"
""")
    script.chmod(0o755)
    return script


def interrupted(tests):
    """Ctrl-C while the lookups of a tile run, which take far longer than the second that passes before."""
    ran = started(tests, "ramp.tif", "plane", "early", "--size", 4096, "--repeat", 100, "--jobs", 2)
    while not (tests.room / "early").exists() and ran.poll() is None:
        time.sleep(0.01)
    time.sleep(1)
    ran.send_signal(signal.SIGINT)
    text = ran.communicate(timeout=60)[1]
    tests.say(ran.returncode == 130 and "0 of 1 tiles are there" in text and "Traceback" not in text, "Ctrl-C in the first tile",
              (ran.returncode, text))
    tests.say(not list((tests.room / "early").iterdir()), "then there is nothing", list((tests.room / "early").iterdir()))


def started(tests, *words):
    """A run that Ctrl-C can end, also if this test runs in the background of a shell, where SIGINT is ignored."""
    return subprocess.Popen(list(map(str, tests.words(*words))), stderr=subprocess.PIPE, text=True,
                            preexec_fn=lambda: signal.signal(signal.SIGINT, signal.SIG_DFL))


def again(tests, has_parallel):
    one, _ = tests.bake("ramp.tif", "cylinder", "one", "--size", 512, "--udims", "2x2", "--jobs", 1)
    many, _ = tests.bake("ramp.tif", "cylinder", "many", "--size", 512, "--udims", "2x2", "--jobs", 8)
    names = sorted(it.name for it in one.iterdir())
    tests.say(len(names) == 4 and all((one / it).read_bytes() == (many / it).read_bytes() for it in names),
              "one thread and eight give the same bytes", names)
    out = tests.room / "stopped"
    ran = started(tests, "ramp.tif", "cylinder", "stopped", "--size", 512, "--udims", "2x2", "--jobs", 1, "--texmake", stopping(tests))
    first = out / names[0]
    while not (tests.room / "waits").exists() and ran.poll() is None:
        time.sleep(0.01)
    ran.send_signal(signal.SIGINT)
    text = ran.communicate(timeout=60)[1]
    left = sorted(it.name for it in out.iterdir())
    tests.say(ran.returncode == 130 and "1 of 4 tiles are there; the same command makes the others" in text and "Traceback" not in text,
              "Ctrl-C in the second tile", (ran.returncode, text))
    tests.say(left == names[:1] and first.read_bytes() == (one / names[0]).read_bytes(), "then there is one whole tile, and no half one", left)
    stamp = first.stat().st_mtime_ns
    _, listed = tests.bake("ramp.tif", "cylinder", "stopped", "--size", 512, "--udims", "2x2", "--list")
    tests.say(len(listed.splitlines()) == 3, "--list has the others", listed)
    if has_parallel:
        ran = subprocess.run(["parallel", "-j", "2"], input=listed, capture_output=True, text=True, cwd="/", check=False,
                             env={**os.environ, "HOME": str(tests.room)})
        tests.say(ran.returncode == 0, "GNU parallel makes them", ran)
    else:
        tests.bake("ramp.tif", "cylinder", "stopped", "--size", 512, "--udims", "2x2")
    is_same = all((out / it).read_bytes() == (one / it).read_bytes() for it in names)
    tests.say(is_same and first.stat().st_mtime_ns == stamp, "all have the same bytes, and the first was kept")


def mistakes(tests):
    points = "v 0 0 0\nv 1 0 0\nv 1 1 0\n"
    for name, text in (("bare", points + "f 1 2 3\n"), ("empty", points), ("far", points + "vt 0 0\nf 1/1 2/1 4/1\n")):
        (tests.room / f"{name}.obj").write_text(text)
    for what, words, wanted in (("an image that does not exist", ["none.tif", "plane", "bad"],
                                 "none.tif: no plain file is found under this name"),
                                ("a mesh that does not exist", ["ramp.tif", "none.obj", "bad"], "none.obj"),
                                ("a mesh without UVs", ["ramp.tif", tests.room / "bare.obj", "bad"], "bare.obj has a face without UVs"),
                                ("a mesh without faces", ["ramp.tif", tests.room / "empty.obj", "bad"], "empty.obj has no faces"),
                                ("a point that is not there", ["ramp.tif", tests.room / "far.obj", "bad"], "far.obj has a face with a point"),
                                ("tiles that are no numbers", ["ramp.tif", "plane", "bad", "--udims", "x"], "--udims is x"),
                                ("one number of tiles", ["ramp.tif", "plane", "bad", "--udims", "2"], "--udims is 2"),
                                ("a size of 0", ["ramp.tif", "plane", "bad", "--size", 0], "--size is 0"),
                                ("no thread", ["ramp.tif", "plane", "bad", "--jobs", 0], "--jobs is 0"),
                                ("a texmake that does not exist", ["ramp.tif", "plane", "bad", "--size", 16, "--texmake", "/none/x"], "/none/x")):
        ran = subprocess.run(tests.words(*words), capture_output=True, text=True, check=False)
        tests.say(ran.returncode in (1, 2) and wanted in ran.stderr and "Traceback" not in ran.stderr, what, ran)
    tests.say(not list((tests.room / "bad").iterdir()), "they leave nothing", list((tests.room / "bad").iterdir()))


def main():
    parser = argparse.ArgumentParser(description=__doc__, allow_abbrev=False)
    parser.add_argument("texmake", type=Path, help="the program texmake")
    parser.add_argument("--parallel", action="store_true", help="run a list by GNU parallel too")
    args = parser.parse_args()
    with tempfile.TemporaryDirectory(prefix="texcache-baker-") as room:
        tests = Tests(Path(room), args.texmake)
        for step in (plane, cylinder, mesh, footprints, mistakes):
            step(tests)
        again(tests, args.parallel)
        interrupted(tests)
    print(f"baker: {tests.passed} passed, {tests.failed} failed")
    return 1 if tests.failed else 0


if __name__ == "__main__":
    sys.exit(main())
