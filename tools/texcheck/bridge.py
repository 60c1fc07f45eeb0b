"""Tests texcache_oiio.hpp, the calls of OpenImageIO's TextureSystem over texcache.

The header compiles without warnings, and what it refuses does not compile, with a text. Each call is tried, well and
badly, beside values from formulas, with more threads than a cache has passes, and with the compiler's sanitizers.
examples/bridge/picture.cpp is compiled with OpenImageIO and with the bridge from the same lines. Their pictures may differ
by 1/255, except where filters differ by definition (docs/OIIO.md), and what they say of files has to be the same.
"""
import os
import random
import shutil
import tempfile
from array import array
from math import cos, sin
from operator import sub
from pathlib import Path

from texcheck.archive import SOURCES, archive_of
from texcheck.common import TOP, Skips, said
from texcheck.fine import Picture

HELP = "the bridge for OpenImageIO users, beside OpenImageIO"
HERE = TOP / "tools" / "bridge"
EXAMPLE = TOP / "examples" / "bridge" / "picture.cpp"
FLAGS = ["-Wall", "-Wextra", "-Wpedantic", "-Wshadow"]
STRICT = [*FLAGS, "-Wconversion", "-Wno-sign-conversion", "-Werror"]
OIIO = ["-lOpenImageIO", "-lOpenImageIO_Util"]
# 1/255, in the samples of the pictures
ONE = 257
# views whose filters differ by definition, and by how many 255ths they may differ at most and in the mean
DIFFERENT = {"close_smart": (30, 4), "floor": (30, 3), "floor_blur": (30, 3)}
# files of UDIM sets, by OpenImageIO's marks, and the textures that they are
TILES = {"t.1001.tif": "rgb", "t.1012.tif": "wide", "t.1023.tif": "deep", "t_u0_v0.tif": "rgb", "t_u1_v1.tif": "wide",
         "t_u2_v1.tif": "deep", "t_u00v00.tif": "rgb", "t_u01v01.tif": "wide", "t_u02v01.tif": "deep"}
# what does not compile: a call, and a part of the text
REFUSED = [("system->texture3d(name, options, 0, 0, 0, 0, 1, &value)", "texcache has no 3D textures"),
           ("system->texture3d(file, nullptr, options, 0, 0, 0, 0, 1, &value)", "texcache has no 3D textures"),
           ("system->environment(name, options, 0, 0, 0, 1, &value)", "texcache has no environment maps"),
           ("system->shadow(name, options, 0, 0, 0, &value)", "texcache has no shadow maps"),
           ("system->imagecache()", "texcache has no ImageCache")]
CALL = """#include <texcache_oiio.hpp>
namespace OIIO = texcache_oiio;
void call(OIIO::TextureSystem *system, OIIO::TextureSystem::TextureHandle *file)
{{
    OIIO::TextureOpt options;
    OIIO::ustring name("a.tif");
    float value = 0;
    (void)file, (void)value;
    {call};
}}
"""
# as the sanitizer sees no locks of the library
RACES = {"TSAN_OPTIONS": f"suppressions={SOURCES / 'tsan.supp'} exitcode=66"}
BUILDS = [("calls", ["-O2"], {}),
          ("calls with the sanitizers of addresses and undefined behaviour",
           ["-fsanitize=address,undefined", "-fno-sanitize=enum", "-fno-sanitize-recover=all"], {}),
          ("calls with the sanitizer of threads", ["-fsanitize=thread"], RACES)]


class Ramp(Picture):
    """128 by 64 texels of 16 bits: 256 x + y in level 0, and 1000 m in level m."""

    def bytes_of(self, level, x, y):
        side = range(self.tile)
        values = ((256 * (x * self.tile + i) + y * self.tile + j if level == 0 else 1000 * level) for j in side for i in side)
        return b"".join((it & 65535).to_bytes(2, "little") for it in values)


def waves(name, width, height, channels, depth):
    """An image of waves and noise, as PNM."""
    drawn, most = random.Random(name), 2 ** depth - 1
    across = [[sin(x / 7 + c) for x in range(width)] for c in range(channels)]
    down = [[cos(y / 11 + 2 * c) for y in range(height)] for c in range(channels)]
    values = (int(most * (0.5 + 0.31 * across[c][x] * down[c][y] + 0.18 * (drawn.random() - 0.5)))
              for y in range(height) for x in range(width) for c in range(channels))
    samples = bytes(values) if depth == 8 else b"".join(it.to_bytes(2, "big") for it in values)
    return f"P{6 if channels == 3 else 5}\n{width} {height}\n{most}\n".encode() + samples


def samples_of(path):
    """The samples of a picture of 16 bits."""
    found = array("H", path.read_bytes().split(b"65535\n", 1)[1])
    found.byteswap()
    return found


class Tests:
    """The tests, in a temporary folder, and how many passed and failed."""

    def __init__(self, library, room, skips):
        self.library, self.room, self.skips, self.passed, self.failed = library, room, skips, 0, 0

    def say(self, is_so, what, more=""):
        self.passed += bool(is_so)
        self.failed += not is_so
        print(f"{'passed' if is_so else 'failed'}: {what}{'' if is_so else ': ' + str(more)[-3000:]}", flush=True)
        return is_so

    def built(self, name, source, *flags, oiio=False):
        """Builds a program; the headers of OpenImageIO have warnings, ours may have none."""
        own = ["-DUSE_OIIO"] if oiio else [*FLAGS, "-Werror", f"-I{TOP / 'include'}"]
        linked = OIIO if oiio else [self.library, "-lm"]
        status, text = said(["c++", "-std=c++17", "-g", *own, *flags, "-o", self.room / name, source, *linked, "-lpthread"],
                            seconds=600)
        return self.say(status == 0, f"building {name}", text)

    def header(self):
        source = self.room / "header.cpp"
        source.write_text("#include <texcache_oiio.hpp>\n#include <texcache.hpp>\nint main() { return 0; }\n")
        compilers = [it for it in ("g++", "clang++") if shutil.which(it)]
        for compiler in compilers:
            for standard in ("c++17", "c++20"):
                words = [compiler, f"-std={standard}", *STRICT, f"-I{TOP / 'include'}", "-fsyntax-only", source]
                status, text = said(words)
                self.say(status == 0, f"the header in {standard} by {compiler}", text)
        status, text = said([compilers[0], "-std=c++14", f"-I{TOP / 'include'}", "-fsyntax-only", source])
        self.say(status and "needs C++17" in text, "an older standard is refused with a text", text)

    def refused(self):
        source = self.room / "refused.cpp"
        for call, text in [*REFUSED, ("system->geterror()", "")]:
            source.write_text(CALL.format(call=call))
            status, output = said(["c++", "-std=c++17", f"-I{TOP / 'include'}", "-fsyntax-only", source])
            self.say(bool(status) == bool(text) and text in output, f"{call} {'does not compile' if text else 'compiles'}", output)

    def calls(self):
        for number, (what, flags, env) in enumerate(BUILDS):
            one, other = self.room / f"one{number}", self.room / f"other{number}"
            one.mkdir()
            other.mkdir()
            Ramp("ramp.tif", 128, 64, 1, 16, 32).write(one)
            Picture("rgb.tif", 100, 100, 3, 8, 32).write(one)
            (one / "bad.tif").write_bytes(b"II*\0no image, but a text")
            shutil.copy(one / "ramp.tif", other / "more.tif")
            if self.built(f"calls{number}", HERE / "calls.cpp", *flags):
                status, text = said([self.room / f"calls{number}", one, other], seconds=600, env={**os.environ, **env})
                self.say(status == 0 and " 0 failed" in text, what, f"status {status}: {text}")

    def page(self):
        """The lines of C++ of docs/OIIO.md."""
        text = (TOP / "docs" / "OIIO.md").read_text(encoding="utf-8").split("```cpp\n")[1].split("```")[0]
        source = self.room / "page.cpp"
        source.write_text(text)
        if self.built("page", source):
            status, text = said([self.room / "page"], cwd=TOP)
            self.say((status, text) == (0, "42919 36494 34759\n"), "the lines of docs/OIIO.md", text)

    def textures(self):
        """The textures, with levels by OpenImageIO's maketx, which both read."""
        folder = self.room / "textures"
        folder.mkdir()
        for name, width, height, channels, depth in (("rgb", 512, 512, 3, 8), ("wide", 512, 256, 3, 8),
                                                     ("grey", 300, 300, 1, 8), ("deep", 256, 256, 3, 16)):
            source = folder / f"{name}.{'ppm' if channels == 3 else 'pgm'}"
            source.write_bytes(waves(name, width, height, channels, depth))
            words = ["maketx", "--nchannels", channels, "-d", f"uint{depth}", "--compression", "none", "--format", "tiff",
                     "-o", folder / f"{name}.tif", source]
            status, text = said(words)
            if not self.say(status == 0, f"maketx {name}.tif", text):
                return None
            source.unlink()
        for name, source in TILES.items():
            shutil.copy(folder / f"{source}.tif", folder / name)
        return folder

    def both(self):
        """The example with OpenImageIO and with the bridge, and their pictures."""
        folder = self.textures()
        outs = {}
        for name, oiio in (("oiio", True), ("ours", False)):
            out = outs[name] = self.room / f"out_{name}"
            out.mkdir()
            if not folder or not self.built(f"picture_{name}", EXAMPLE, "-O2", oiio=oiio):
                return
            status, text = said([self.room / f"picture_{name}", folder, out], seconds=600)
            if not self.say(status == 0, f"drawing with {name}", text):
                return
        names = sorted(it.name for it in outs["oiio"].glob("*.ppm"))
        self.say(len(names) > 60 and names == sorted(it.name for it in outs["ours"].glob("*.ppm")), "views", names)
        for name in names:
            self.compare(name, *(samples_of(it / name) for it in outs.values()))
        facts = [(it / "facts.txt").read_text() for it in outs.values()]
        wrong = [f"{a!r}, and not {b!r}" for a, b in zip(facts[1].splitlines(), facts[0].splitlines()) if a != b]
        self.say(not wrong and len(facts[0]) == len(facts[1]), "what both say of files, attributes and errors", wrong)

    def compare(self, name, theirs, ours):
        most, mean = DIFFERENT.get(name.removesuffix(".ppm").removesuffix("_batch"), (1, 0.01))
        gaps = [abs(it) for it in map(sub, theirs, ours)]
        widest, average = max(gaps) / ONE, sum(gaps) / len(gaps) / ONE
        is_drawn = max(ours) - min(ours) > 20 * ONE or name.startswith("missing")
        self.say(len(theirs) == len(ours) and is_drawn and widest <= most and average <= mean,
                 f"{name}: at most {widest:.3f}/255, in the mean {average:.4f}/255", f"they may be {most} and {mean}")


def add_arguments(parser):
    parser.add_argument("--library", type=Path, metavar="FILE",
                        help="the library; else the proved one if it is up to date, or an unproved build")
    Skips.add_argument(parser)


def missing():
    """What the pictures need and is not installed."""
    if not shutil.which("maketx"):
        return "openimageio-tools"
    has_headers = shutil.which("pkg-config") and said(["pkg-config", "--exists", "OpenImageIO"])[0] == 0
    return None if has_headers else "libopenimageio-dev"


def run(args):
    skips = Skips(args)
    if skips.lacks(None if shutil.which("c++") else "a C++ compiler", "bridge"):
        return 1 if skips.failed else 0
    with tempfile.TemporaryDirectory() as room:
        tests = Tests(archive_of(args.library), Path(room), skips)
        for step in (tests.header, tests.refused, tests.calls, tests.page):
            step()
        if not skips.lacks(missing(), "pictures beside OpenImageIO"):
            tests.both()
    print(f"bridge: {tests.passed} passed, {tests.failed} failed")
    return 1 if tests.failed or skips.failed else 0
