"""Tests the library tex_c, and the C, C++ and Python that use it.

The demo's list and the stored run of texcache are answered by 1 and by 8 threads. Each answer must be the line of
expected.txt or of the run's stdout. Each thread needs the same cells as the program's worker. Then come wrong calls, passes, threads and forks, open files,
lookups on doubles, their options and the types of results, errors in words, statistics, and files that are replaced
while they are read. All also run under valgrind and with the compiler's sanitizers, of addresses, of undefined
behaviour and of threads, which then see the C part too. `tools/check fine` tests which values lookups on doubles have.
"""
import os
import shutil
import sys
import tempfile
from pathlib import Path

from texcheck.archive import C_FLAGS, SOURCES, archive_of, c_files, defines
from texcheck.common import TOP, Skips, add_program, debian_python, program_of, said
from texcheck.sources import version_text
from texcheck.tree import SHARED, shared

HELP = "the library for C, and the C, C++ and Python that use it"
HERE = TOP / "tools" / "embedding"
RUN = TOP / "crates" / "texcache"
FLAGS = ["-O2", "-Wall", "-Wextra", f"-I{TOP / 'include'}"]
# for tests that look into the C part
INSIDE = ["-std=c99", f"-I{SOURCES}"]
# the library's calls for many lookups come through the test
WRAP = "-Wl,--wrap=tex_c_texture_many"
# what the C part reads, or asks the system about names, comes through the test
WRAP_INPUT = "-Wl,--wrap=openat,--wrap=pread,--wrap=fstatat"
WRAP_NAMES = "-Wl,--wrap=openat,--wrap=fstatat"
THREADS = ("1", "8")
MANY_THREADS = ("64", "255")
# each test in C over an empty folder: its name, what it is about, its flags, and its arguments beside the folder
OVER_FOLDERS = [("bad_use", "bad use and bad input", INSIDE, []),
                ("passes", "passes, threads and forks", INSIDE, []),
                ("large", "1023 passes, large shards and 256 threads", ["-std=c99"], []),
                ("descriptors", "open files", INSIDE, []),
                ("paths", "names and paths of files", ["-std=c99", WRAP_NAMES], []),
                ("udim", "UDIM sets", ["-std=c99"], []),
                ("lookups", "lookups on doubles, and many in one call", [*INSIDE, WRAP], []),
                ("errors", "errors in words", ["-std=c99"], []),
                ("options", "options of lookups, and types of results", ["-std=c99"], []),
                ("statistics", "statistics", ["-std=c99", WRAP_INPUT], []),
                ("replaced", "files that are replaced while they are read", ["-std=c99"], ["8", "4000", "11990"])]
# each test in C++ over the demo, and what it is about
IN_CXX = [("lookups", "lookups on doubles"), ("calls", "all calls, by exceptions and by error codes")]


def lists():
    """Each list with its name, its folder, and the lines that answer it."""
    demo = TOP / "demo"
    yield "the demo", demo, (demo / "requests.txt").read_bytes(), (demo / "expected.txt").read_text().splitlines()
    yield "the stored run", RUN / "data", (RUN / "stdin").read_bytes(), (RUN / "stdout").read_text().splitlines()


def differences(got, wanted):
    """How many lines differ, and the first of them. The line `-` means that the library does not have the request."""
    wanted = [it for it in wanted if not it.startswith(("worker ", "total "))]
    answers = [it for it in got.splitlines() if not it.startswith("worker ")]
    if len(answers) != len(wanted):
        return f"{len(answers)} lines, wanted {len(wanted)}: {got[-500:]}"
    wrong = [f"line {n}: {a[:100]!r}, wanted {b[:100]!r}" for n, (a, b) in enumerate(zip(answers, wanted), 1)
             if a not in (b, "-")]
    if sum(it == "-" for it in answers) * 10 > len(answers):
        wrong.append("more than a tenth of the lines were not compared")
    return "\n".join([f"{len(wrong)} differ", *wrong[:3]]) if wrong else ""


def needs(text):
    """The needs of each thread."""
    return [int(it.split()[3]) for it in text.splitlines() if it.startswith("worker ")]


class Tests:
    """The tests of one library, in a temporary folder, and how many passed and failed."""

    def __init__(self, library, program, made, skips):
        self.library, self.program, self.made, self.skips = library, program, made, skips
        self.passed, self.failed, self.wrong = 0, 0, []
        self.cc = shutil.which(os.environ.get("CC", "cc")) or shutil.which("gcc")
        self.cxx = shutil.which(os.environ.get("CXX", "c++")) or shutil.which("g++")
        self.valgrind = shutil.which("valgrind")
        self.shared = made / SHARED
        shared(library, self.shared)

    def say(self, is_so, what, more=""):
        self.passed += bool(is_so)
        self.failed += not is_so
        print(f"{'passed' if is_so else 'failed'}: {what}{'' if is_so else ': ' + more[-3000:]}", flush=True)

    def built(self, name, source, *flags, compiler=None, over=None):
        """Builds a program, and returns whether that worked. Warnings count as a failure."""
        status, text = said([compiler or self.cc, *FLAGS, *flags, "-o", self.made / name, source,
                             *(over or [self.library]), "-lm", "-lpthread"], seconds=600)
        if status or text:
            self.say(False, f"building {name}", text or f"status {status}")
        return status == 0

    def compare(self, what, words, folder, given, wanted, threads=None, with_needs=True, **more):
        """Tests the answers to a list. With `threads` it also tests how many cells each thread needed."""
        status, got = said([*words, folder, *([threads] if threads else [])], given, 600, **more)
        wrong = differences(got, wanted) if status == 0 else f"status {status}: {got[-2000:]}"
        self.say(not wrong, what, wrong)
        if threads and with_needs and not wrong and needs(got) and b"<UDIM>" not in given:
            _, other = said([self.program, folder, "--workers", threads], given)
            wanted_needs, seen = needs(other), needs(got)
            self.say(seen == wanted_needs, f"{what}: the needs of each thread", f"{seen}, wanted {wanted_needs}")

    def over_a_folder(self, what, name, *arguments, before=(), **more):
        with tempfile.TemporaryDirectory() as folder:
            status, text = said([*before, self.made / name, folder, *arguments], seconds=600, **more)
            self.say(status == 0, what, text)

    def over_the_demo(self, what, name, before=(), **more):
        status, text = said([*before, self.made / name, TOP / "demo"], seconds=600, **more)
        self.say(status == 0, what, text)

    def in_c(self):
        if self.built("lines", HERE / "lines.c", "-std=c99", "-Wpedantic"):
            for name, *one in lists():
                for threads in THREADS:
                    self.compare(f"C, {name}, {threads} threads", [self.made / "lines"], *one, threads)
                # the program has at most 16 workers, so the needs of each thread are not compared
                for threads in MANY_THREADS:
                    self.compare(f"C, {name}, {threads} threads", [self.made / "lines"], *one, threads, with_needs=False)
        page = (TOP / "docs" / "EMBEDDING.md").read_text(encoding="utf-8")
        (self.made / "page.c").write_text(page.split("```c\n")[1].split("```")[0])
        if self.built("page", self.made / "page.c", "-std=c99", "-Wpedantic"):
            status, text = said([self.made / "page"], cwd=TOP)
            self.say((status, text) == (0, "ok 42919 36494 34759\n"), "the lines of C of docs/EMBEDDING.md", text)
        for name, what, flags, words in OVER_FOLDERS:
            if self.built(name, HERE / f"{name}.c", *flags):
                self.over_a_folder(what, name, *words)
        if self.built("lookups_fast", HERE / "lookups.c", *INSIDE, WRAP, "-O3", "-ffast-math"):
            self.over_a_folder("lookups on doubles with -ffast-math", "lookups_fast")

    def is_clean(self, what, source, *flags, compiler=None):
        """Compiles a file, alone; no warning is right."""
        status, text = said([compiler or self.cc, *FLAGS, *flags, "-o", self.made / "part.o", source])
        self.wrong += [f"{what}: {text or status}"] if status or text else []

    def headers(self):
        """The headers in all standards, alone, before and behind those of the system; and the C part without warnings."""
        strict = ["-Wpedantic", "-Wshadow", "-Wconversion", "-Wno-sign-conversion", "-c"]
        own = [f'#include "{it}"\n' for it in ("texcache.h", "texcache_supply.h")]
        others = "#include <stdio.h>\n#include <unistd.h>\n#include <pthread.h>\n"
        for number, text in enumerate([*own, *(others + it for it in own), *(it + others for it in own)]):
            source = self.made / f"header{number}.c"
            source.write_text(text + "typedef int unused;\n")
            for standard in ("c99", "c11", "c17", "gnu11"):
                self.is_clean(f"{source.name} in {standard}", source, f"-std={standard}", *strict)
        source = self.made / "header.cpp"
        source.write_text(others + '#include "texcache.hpp"\n#include "texcache_supply.h"\n')
        for standard in ("c++14", "c++17", "c++20") if self.cxx else ():
            self.is_clean(f"texcache.hpp in {standard}", source, f"-std={standard}", *strict, compiler=self.cxx)
        for source in c_files():
            self.is_clean(source.name, source, *C_FLAGS, defines("0"), *strict)
        self.say(not self.wrong, "headers and the C part compile without a warning", "\n".join(self.wrong))

    def in_cxx(self):
        if self.skips.lacks(None if self.cxx else "a C++ compiler", "C++"):
            return
        if self.built("lines_cpp", HERE / "lines.cpp", "-std=c++17", compiler=self.cxx):
            for name, *one in lists():
                self.compare(f"C++, {name}", [self.made / "lines_cpp"], *one)
        for standard in ("c++14", "c++17", "c++20"):
            for name, what in IN_CXX:
                if self.built(f"{name}_cpp", HERE / f"{name}.cpp", f"-std={standard}", "-Wpedantic", compiler=self.cxx):
                    self.over_the_demo(f"C++, {what}, {standard}", f"{name}_cpp")

    def in_python(self):
        more = {"env": {**os.environ, "TEXCACHE_LIBRARY": str(self.shared)}}
        has_numpy = said([debian_python(), "-c", "import numpy"])[0] == 0
        pythons = {"Python": [sys.executable, "-S"], "Python with numpy": [debian_python()]}
        if self.skips.lacks(None if has_numpy else "Python's numpy", "Python with numpy"):
            del pythons["Python with numpy"]
        for what, python in pythons.items():
            for name, *one in lists():
                for threads in THREADS:
                    self.compare(f"{what}, {name}, {threads} threads", [*python, HERE / "lines.py"], *one, threads,
                                 **more)
            status, text = said([*python, HERE / "lookups.py", TOP / "demo"], **more)
            self.say(status == 0, f"{what}, lookups on doubles", text)
        page = (TOP / "docs" / "EMBEDDING.md").read_text(encoding="utf-8")
        status, text = said([sys.executable, "-c", page.split("```python\n")[1].split("```")[0]], cwd=TOP, **more)
        self.say(status == 0 and "[42919, 36494, 34759]" in text and text.endswith("no level 6\n"),
                 "the lines of Python of docs/EMBEDDING.md", text)

    def under_valgrind(self):
        if self.skips.lacks(None if self.valgrind else "valgrind", "the tests under valgrind"):
            return
        grind = [self.valgrind, "-q", "--error-exitcode=9", "--leak-check=full", "--show-leak-kinds=all"]
        name, *one = next(lists())
        for threads in THREADS:
            self.compare(f"valgrind, {name}, {threads} threads", [*grind, self.made / "lines"], *one, threads)
        for name, what, _, words in OVER_FOLDERS:
            self.over_a_folder(f"valgrind, {what}", name, *(["4", "1500"] if words else []), before=grind)
        for name, what in IN_CXX if self.cxx else ():
            self.over_the_demo(f"valgrind, C++, {what}", f"{name}_cpp", before=grind)

    def sanitized(self, kind, flags, over, **more):
        """The tests, built with the C part by a sanitizer, over a library that it does not see."""
        flags = [*flags, "-g", *C_FLAGS, defines(version_text(False))]
        if self.built(f"lines_{kind}", HERE / "lines.c", *flags, over=[*c_files(), *over]):
            for name, *one in lists():
                self.compare(f"{kind}, {name}, 8 threads", [self.made / f"lines_{kind}"], *one, "8", **more)
        for name, what, own, words in OVER_FOLDERS:
            if self.built(f"{name}_{kind}", HERE / f"{name}.c", *flags, *own, over=[*c_files(), *over]):
                self.over_a_folder(f"{kind}, {what}", f"{name}_{kind}", *(["8", "3000"] if words else []), **more)
        if self.cxx:
            self.sanitized_cxx(kind, flags, over, **more)

    def sanitized_cxx(self, kind, flags, over, **more):
        """The tests in C++, linked with the C part as a C compiler made it."""
        objects = [self.made / f"{it.stem}_{kind}.o" for it in c_files()]
        for source, target in zip(c_files(), objects):
            status, text = said([self.cc, *FLAGS, *flags, "-c", "-o", target, source], seconds=600)
            if status or text:
                self.say(False, f"building {target.name}", text or f"status {status}")
                return
        own = [it for it in flags if it.startswith(("-f", "-g"))]
        for name, what in IN_CXX:
            if self.built(f"{name}_cpp_{kind}", HERE / f"{name}.cpp", "-std=c++17", *own, compiler=self.cxx,
                          over=[*objects, *over]):
                self.over_the_demo(f"{kind}, C++, {what}", f"{name}_cpp_{kind}", **more)

    def with_addresses(self):
        flags = ["-fsanitize=address,undefined", "-fno-sanitize-recover=all"]
        self.sanitized("addresses", flags, [self.library])

    def with_races(self):
        # the library hands its blocks from thread to thread by atomic steps of its own, which the sanitizer does not
        # see; in a shared object it can be told to look at the C side alone
        core = self.made / "libtex_c_core.so"
        said([self.cc, "-shared", "-o", core, "-Wl,--whole-archive", self.library, "-Wl,--no-whole-archive"])
        (self.made / "library").write_text(f"called_from_lib:{core.name}\n")
        options = lambda supp: {"env": {**os.environ, "TSAN_OPTIONS": f"suppressions={supp} exitcode=66"}}
        self.sanitized("races", ["-fsanitize=thread"], [core, f"-Wl,-rpath,{self.made}"], **options(self.made / "library"))
        # programs of others, over the archive and the shared library as they are, with the file that is installed
        installed = options(SOURCES / "tsan.supp")
        for what, over in (("archive", [self.library]), ("shared library", [self.shared, f"-Wl,-rpath,{self.made}"])):
            if self.built("lines_user", HERE / "lines.c", "-fsanitize=thread", "-g", over=over):
                name, *one = next(lists())
                self.compare(f"races, the {what} with tsan.supp", [self.made / "lines_user"], *one, "8", **installed)
            if self.built("replaced_user", HERE / "replaced.c", "-fsanitize=thread", "-g", over=over):
                self.over_a_folder(f"races, the {what} with tsan.supp, files that are replaced", "replaced_user", "8",
                                   "2000", **installed)
            if self.built("options_user", HERE / "options.c", "-std=c99", "-fsanitize=thread", "-g", over=over):
                self.over_a_folder(f"races, the {what} with tsan.supp, options", "options_user", **installed)


def add_arguments(parser):
    parser.add_argument("--library", type=Path, metavar="FILE",
                        help="the library; else the proved one if it is up to date, or an unproved build")
    add_program(parser, "texcache")
    Skips.add_argument(parser)



def run(args):
    skips = Skips(args)
    with tempfile.TemporaryDirectory() as made:
        tests = Tests(archive_of(args.library), program_of(args, "texcache"), Path(made), skips)
        if skips.lacks(None if tests.cc else "a C compiler", "embedding"):
            return 1 if skips.failed else 0
        for step in (tests.headers, tests.in_c, tests.in_cxx, tests.in_python, tests.under_valgrind,
                     tests.with_addresses, tests.with_races):
            step()
    print(f"{tests.passed} passed, {tests.failed} failed")
    return 1 if tests.failed or skips.failed else 0
