"""Tests what ./build dist packs and ./install installs, each in an empty folder and without the toolchain.

It packs twice, and the bytes have to be the same. The tarball is unpacked, and the package of Debian installed. From
what is in the folder alone it runs both programs and the tools, and builds the examples: in C by pkg-config, in C and
C++ by CMake, and in Python. A program with a header of another version must not link, and a Python package of another
version has to be refused with a text. What ./install leaves has to be what the tarball has. What is proved and up to
date is packed, and an unproved build of the rest.
"""
import filecmp
import os
import re
import shutil
import subprocess
import tempfile
from pathlib import Path

from texcheck.common import TOP, Skips, debian_python, lacking_module, said
from texcheck.dist import dist
from texcheck.sources import version_text
from texcheck.tree import SHARED, TOOLS, Parts
from texcheck.unproved import LIBRARY

HELP = "what ./build dist packs and ./install installs, without the toolchain"
MIDDLE = "42919 36494 34759"
OTHER, OTHER_SYMBOL = "9.9.9", "_9_9_9"
CMAKE = """cmake_minimum_required(VERSION 3.13)
project(demands C)
find_package(texcache {demand} REQUIRED)
"""


class Package:
    """The tests of what is packed, in a temporary folder, and how many passed and failed."""

    def __init__(self, room, parts, skips):
        self.room, self.parts, self.skips = room, parts, skips
        self.passed, self.failed = 0, 0
        # a program of this name that fails: nothing that is packed may ask the toolchain
        (room / "bin").mkdir()
        (room / "bin" / "rt").write_text("#!/bin/sh\nexit 9\n", encoding="ascii")
        (room / "bin" / "rt").chmod(0o755)
        self.env = {"PATH": f"{room / 'bin'}:/usr/bin:/bin", "HOME": str(room), "LC_ALL": "C.UTF-8",
                    "PYTHONDONTWRITEBYTECODE": "1"}

    def say(self, is_so, what, more=""):
        self.passed += bool(is_so)
        self.failed += not is_so
        print(f"{'passed' if is_so else 'failed'}: {what}{'' if is_so else ': ' + str(more)[-3000:]}", flush=True)
        return is_so

    def does(self, what, words, says, status=0, given=b"", **more):
        """Whether a command ends with a status, and says this."""
        environment = {**self.env, **more}
        found, text = said(words, given, 300, cwd=self.room, env=environment)
        return self.say(found == status and says in text, what, f"status {found}, wanted {status}: {text}")

    def packed(self):
        """The tarball and, if dpkg-deb is there, the package of Debian. They are packed twice."""
        first, second = self.room / "first", self.room / "second"
        for out in (first, second):
            lines = dist(self.parts, out)
        print(lines[0])
        for it in sorted(first.iterdir()):
            self.say(filecmp.cmp(it, second / it.name, shallow=False), f"{it.name} has the same bytes twice")
            is_so = ("unproved" in it.name) == bool(self.parts.unproved())
            self.say(is_so, f"the name {it.name} says whether all of it is proved")
        return sorted(first.iterdir())

    def unpacked(self, packed):
        """The folder that would be the prefix."""
        to = self.room / f"from-{packed.suffix[1:]}"
        to.mkdir()
        if packed.suffix == ".deb":
            self.put_package(packed, to)
            return to / "usr"
        self.does(f"unpacking {packed.name}", ["tar", "-xzf", packed, "-C", to], "")
        return to / packed.name.removesuffix(".tar.gz")

    def put_package(self, packed, to):
        """Installs the package of Debian into a system that has no other; only root can, so others unpack it."""
        if os.geteuid():
            self.does(f"unpacking {packed.name}", ["dpkg-deb", "-x", packed, to], "")
            return
        for it in ("info", "updates", "triggers"):
            (to / "var/lib/dpkg" / it).mkdir(parents=True)
        for it in ("status", "available"):
            (to / "var/lib/dpkg" / it).touch()
        words = ["dpkg", f"--root={to}", f"--log={to / 'log'}", "--force-depends", "--force-script-chrootless", "-i"]
        self.does(f"installing {packed.name}", [*words, packed], "Setting up texcache", PATH="/usr/sbin:/usr/bin:/sbin:/bin")

    def programs(self, top):
        """Both programs through their wrappers: answers, texts and statuses."""
        texcache, texmake, demo = top / "bin" / "texcache", top / "bin" / "texmake", top / "share/doc/texcache/demo"
        given, wanted = (demo / "requests.txt").read_bytes(), (demo / "expected.txt").read_text(encoding="ascii")
        ran = subprocess.run([texcache, demo], input=given, env=self.env, capture_output=True, check=False)
        self.say(ran.stdout.decode() == wanted, "texcache answers the demo's list", ran.stdout + ran.stderr)
        is_so = (b"not proved" in ran.stderr) != self.parts.is_proved["texcache"]
        self.say(is_so, "texcache says whether it is proved", ran.stderr)
        for name, program in (("texcache", texcache), ("texmake", texmake)):
            version = version_text(self.parts.is_proved[name])
            self.does(f"{name} --version", [program, "--version"], f"{name} {version}\n")
        self.does("texcache on a folder that does not exist", [texcache, "/nonexistent"], "/nonexistent: No such", 4)
        bad = b"tex 0.5 0 0 clamp clamp closest 3 x\n"
        self.does("texcache with a bad list", [texcache, demo], "field 1, S", 3, bad)
        self.does("texmake on a damaged file", [texmake, demo, "cut.tif"], "strip or tile 2 of level 0", 8)
        self.does("texmake -o", [texmake, demo, "hills.tif", "-o", top / "made.tif"], "")

    def tools(self, top):
        """The tools for people, each on the demo."""
        demo, tool = top / "share/doc/texcache/demo", lambda name: top / "bin" / name
        for name in TOOLS:
            self.does(f"{name} --help", [tool(name), "--help"], "usage: ")
        self.does("folder_info.py", [tool("folder_info.py"), demo], "bricks.tif: ")
        self.does("explain.py", [tool("explain.py"), demo / "requests.txt", demo / "expected.txt"], "generation 1")
        made = self.room / f"made-{top.name}"
        if self.does("prepare.py", [tool("prepare.py"), demo, made, "--only", "hills.tif"], ""):
            self.say((made / "hills.tif").is_file(), "prepare.py makes a texture", list(made.iterdir()))
        self.does("hit_curve.py", [tool("hit_curve.py"), demo, demo / "requests.txt", "--most", "2M"], "2 MiB")

    def in_c(self, top):
        """The example in C, built as pkg-config says, and with a header of another version."""
        examples, demo = top / "share/doc/texcache/examples", top / "share/doc/texcache/demo"
        if self.skips.lacks(None if shutil.which("pkg-config") else "pkg-config", "the example in C"):
            return
        self.env["PKG_CONFIG_PATH"] = str(top / "lib/pkgconfig")
        self.does("the version for pkg-config", ["pkg-config", "--modversion", "texcache"], f"{self.parts.version}\n")
        words = ["sh", "-c", 'cc -Wall -Wextra -Werror "$0" -o "$1" $2 $(pkg-config --cflags --libs texcache)']
        if self.does("building the example in C", [*words, examples / "lookup.c", top / "lookup", ""], ""):
            self.does("the example in C", [top / "lookup", demo, "bricks.tif"], f"{self.parts.version}: {MIDDLE}\n")
        words_cpp = ["sh", "-c", 'c++ -std=c++17 -Wall -Wextra -Werror "$0" -o "$1" $(pkg-config --cflags --libs texcache)']
        if not self.skips.lacks(None if shutil.which("c++") else "a C++ compiler", "the example for OpenImageIO users"):
            self.does("building the example for OpenImageIO users", [*words_cpp, examples / "picture.cpp", top / "picture"], "")
            self.does("it starts", [top / "picture"], "usage: picture", 2)
        other = top / "other" / "texcache.h"
        other.parent.mkdir()
        text = (top / "include" / "texcache.h").read_text(encoding="utf-8")
        other.write_text(re.sub(r'(?<=__asm__\(name ).*', f'"{OTHER_SYMBOL}")', text), encoding="utf-8")
        self.does("a header of another version does not link",
                  [*words, examples / "lookup.c", top / "lookup_other", f"-I{other.parent}"],
                  f"texcache_open{OTHER_SYMBOL}", 1)

    def in_cmake(self, top):
        """The examples in C and C++, built by CMake, and demands of a version."""
        lacking = next((it for it in ("cmake", "c++", "make") if not shutil.which(it)), None)
        if self.skips.lacks(lacking, "the examples by CMake"):
            return
        examples, demo = top / "share/doc/texcache/examples", top / "share/doc/texcache/demo"
        configure = ["cmake", f"-DCMAKE_PREFIX_PATH={top}", "-S"]
        if self.does("CMake finds the library", [*configure, examples, "-B", top / "cmake"], "") \
                and self.does("building the examples by CMake", ["cmake", "--build", top / "cmake"], ""):
            for name in ("lookup", "lookup_cpp"):
                words = [top / "cmake" / name, demo, "bricks.tif"]
                self.does(f"CMake's {name}", words, f"{self.parts.version}: {MIDDLE}\n")
        for demand, status in (("1.0", 0), ("1.1", 1), ("2.0", 1)):
            source = top / f"demand-{demand}"
            source.mkdir()
            (source / "CMakeLists.txt").write_text(CMAKE.format(demand=demand), encoding="ascii")
            self.does(f"CMake's demand of version {demand}", [*configure, source, "-B", source / "build"], "", status)

    def in_python(self, top):
        """The example in Python, by the package and by a wheel of it, and a package of another version."""
        examples, demo, python = top / "share/doc/texcache/examples", top / "share/doc/texcache/demo", debian_python()
        own, words = top / "lib/texcache/python", [python, examples / "lookup.py", demo, "bricks.tif"]
        self.does("the example in Python", words, f"{self.parts.version}: {MIDDLE}\n", PYTHONPATH=str(own))
        if not self.skips.lacks(lacking_module("numpy", "PIL"), "the viewer of what is installed"):
            self.does("the viewer without Leaflet", [python, "-m", "texcache.viewer", demo, "--leaflet", top], "libjs-leaflet", 1,
                      PYTHONPATH=str(own))
        pages = {it.name for it in (own / "texcache" / "viewer" / "static").iterdir()}
        self.say({"file.html", "file.js", "viewer.css"} <= pages, "the viewer's pages are installed", pages)
        other = top / "other.py"
        shutil.copytree(own, other, symlinks=True)
        (other / "texcache" / "_version.py").write_text(f'VERSION = "{OTHER}"\n', encoding="utf-8")
        self.does("a Python package of another version is refused", words,
                  f"the Python package texcache is of version {OTHER}", 1, PYTHONPATH=str(other),
                  TEXCACHE_LIBRARY=str(top / "lib" / SHARED))
        if self.skips.lacks(lacking_module("pip", "setuptools", "wheel"), "a wheel of what is installed"):
            return
        wheel = [python, "-m", "pip", "wheel", "-q", "--no-deps", "--no-build-isolation", "-w", top / "wheels", "."]
        before = sorted(own.rglob("*"))
        self.does("a wheel of what is installed", ["sh", "-c", 'cd "$0" && exec "$@"', own, *wheel], "")
        self.say(len(list((top / "wheels").glob("*.whl"))) == 1 and sorted(own.rglob("*")) == before,
                 "it is there, and nothing else is left")

    def files(self, top):
        """The shared library's exports, the man pages, and that no file names a folder of the build."""
        exported = [it.split()[-1] for it in said(["nm", "-D", "--defined-only", top / "lib" / SHARED])[1].splitlines()]
        self.say(exported and all(it.startswith("texcache_") for it in exported), f"{SHARED} exports our calls alone",
                 exported)
        self.say((top / "share/texcache/tsan.supp").is_file(), "tsan.supp is there")
        self.does("its soname", ["readelf", "-d", top / "lib" / SHARED], f"soname: [{SHARED}]")
        build = [str(TOP).encode(), str(self.room).encode(), b"/tmp/", os.environ.get("HOME", "/root").encode() + b"/"]
        leaking = [it for it in self.binaries(top) if any(word in it.read_bytes() for word in build)]
        self.say(not leaking, "no binary names a folder of the build", leaking)
        if self.skips.lacks(None if shutil.which("man") else "man", "the man pages"):
            return
        for page in ("man1/texcache.1", "man1/texmake.1", "man3/texcache.3"):
            status, text = said(["man", "--warnings", "-l", top / "share" / "man" / page], env=self.env)
            self.say(status == 0 and "warning" not in text and "NAME" in text, f"the man page {page}", text)

    def binaries(self, top):
        return [*(top / "lib").glob("libtexcache.*"), *(top / "libexec/texcache").glob("*proved/*")]

    def test(self, packed):
        print(f"{packed.name}:")
        top = self.unpacked(packed)
        for step in (self.files, self.programs, self.tools, self.in_c, self.in_cmake, self.in_python):
            step(top)

    def installed(self, packed):
        """What ./install leaves, put over an earlier one too, beside what the tarball has."""
        own = self.room / "own"
        words = [TOP / "install", own, *([] if self.parts.is_proved[LIBRARY] else ["--unproved"])]
        for what in ("into an empty folder", "once more"):
            status, text = said(words)
            self.say(status == 0 and self.parts.version in text, f"./install {what}", text)
        to = self.room / "beside"
        to.mkdir()
        said(["tar", "-xzf", packed, "-C", to])
        # README says whether something is not committed, which another test may change meanwhile
        status, text = said(["diff", "-r", "--exclude=README", own, to / packed.name.removesuffix(".tar.gz")])
        self.say(status == 0, "./install leaves what the tarball has", text)
        if not self.parts.is_proved[LIBRARY]:
            status, text = said([TOP / "install", self.room / "nowhere"])
            is_so = status == 1 and "--unproved" in text and not (self.room / "nowhere").exists()
            self.say(is_so, "./install without a proved library is refused, and says what helps", text)


def add_arguments(parser):
    Skips.add_argument(parser)


def run(args):
    skips = Skips(args)
    lacking = next((it for it in ("cc", "nm", "readelf", "tar") if not shutil.which(it)), None)
    if skips.lacks(lacking, "package"):
        return 1 if skips.failed else 0
    parts = Parts(True)
    print(parts.state())
    with tempfile.TemporaryDirectory() as room:
        tests = Package(Path(room), parts, skips)
        every = tests.packed()
        skips.lacks(None if len(every) == 2 else "dpkg-deb", "the package of Debian")
        for packed in every:
            tests.test(packed)
        tests.installed(next(it for it in every if it.suffix == ".gz"))
    print(f"package: {tests.passed} passed, {tests.failed} failed")
    return 1 if tests.failed or skips.failed else 0
