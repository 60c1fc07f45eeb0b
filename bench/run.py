#!/usr/bin/env python3
"""Measures texcache beside OpenImageIO on the same lists of requests: the program, and the C library.

It makes files and lists (make_files.py), builds the two programs that answer lists through the C library
(texcache_lists.cpp) and through OpenImageIO (oiio_lists.cpp), runs all three in turn and keeps the least of the passes.
Each row has a short and a long list. Its figure is the difference of their times per additional item, so it contains no
start-up. The calls of OpenImageIO and of the C library are timed by the programs' own clock, without parsing and
printing; the program texcache and OpenImageIO's program are timed as a whole.

It prints the tables of docs/BENCHMARK.md. With --write it also writes figures.json, that page and its plot, but only if
all rows were measured, of a commit without changes, and the load was never above 2 per processor.
"""
import argparse
import json
import os
import platform
import re
import shutil
import signal
import subprocess
import sys
import tempfile
from pathlib import Path

import draw
from make_files import make
from rows import ROWS

HERE = Path(__file__).resolve().parent
TOP = HERE.parent
PROGRAM = TOP / "crates" / "texcache" / "out" / "texcache"
LIBRARY = TOP / "crates" / "tex_c" / "out" / "libtexcache.a"
MOST_LOAD = 2  # per processor
NAMES = ("program", "c", "oiio")


def say(text):
    print(f"run.py: {text}", file=sys.stderr, flush=True)


def arguments():
    parser = argparse.ArgumentParser(description=__doc__, formatter_class=argparse.RawDescriptionHelpFormatter)
    parser.add_argument("--program", type=Path, default=PROGRAM, help="the program; ./build makes it")
    parser.add_argument("--library", type=Path, default=LIBRARY, help="the C library; ./build tex_c makes it")
    parser.add_argument("--folder", type=Path, help="where the files are made, and stay; else they are deleted at the end")
    parser.add_argument("--passes", type=int, default=5, help="how often each list is run; 5 by default")
    parser.add_argument("--rows", default=",".join(ROWS), help="some of the rows: " + ", ".join(ROWS))
    parser.add_argument("--write", action="store_true", help="write bench/figures.json, docs/BENCHMARK.md and its plot")
    asked = parser.parse_args()
    unknown = [it for it in asked.rows.split(",") if it not in ROWS]
    if unknown:
        parser.error(f"no row is called {unknown[0]}; there are {', '.join(ROWS)}")
    return asked


def output_of(words):
    return subprocess.run([str(it) for it in words], stdout=subprocess.PIPE, check=True, text=True).stdout.strip()


def build(folder, asked):
    """The programs, by their names, and what measures them; a missing part ends the run."""
    for file, makes in ((asked.program, "./build"), (asked.library, "./build tex_c")):
        if not file.is_file():
            sys.exit(f"run.py: {file} does not exist; {makes} makes it")
    if subprocess.run(["pkg-config", "--exists", "OpenImageIO"], check=False).returncode:
        sys.exit("run.py: OpenImageIO is not installed: apt-get install libopenimageio-dev")
    flags = ["g++", "-std=c++17", "-O2", "-I", TOP / "include"]
    subprocess.run(["cc", "-O2", "-o", folder / "measure", HERE / "measure.c"], check=True)
    subprocess.run([*flags, "-o", folder / "c", HERE / "texcache_lists.cpp", asked.library.resolve(), "-lm",
                    "-lpthread"], check=True)
    found = output_of(["pkg-config", "--cflags", "--libs", "OpenImageIO"]).split()
    subprocess.run([*flags, "-o", folder / "oiio", HERE / "oiio_lists.cpp", "-lpthread", *found], check=True)
    return {"program": asked.program.resolve(), "c": folder / "c", "oiio": folder / "oiio"}


class Load:
    """The least and the most load that was seen."""

    def __init__(self):
        self.seen = []
        self.look()

    def look(self):
        self.seen.append(os.getloadavg()[0])
        return self.seen[-1]

    def is_too_high(self):
        return max(self.seen) > MOST_LOAD * os.cpu_count()

    def __str__(self):
        return f"load {min(self.seen):.1f} to {max(self.seen):.1f}"


class Bench:
    """The programs, the folder with files and lists, and how to run the first on the second."""

    def __init__(self, folder, programs):
        self.folder, self.programs = folder, programs

    def list(self, row, kind):
        return self.folder / "lists" / f"{row.name}.{kind}"

    def took(self, name, row, kind, workers, lines="/dev/null"):
        """One run: processor time, wall time (microseconds), peak memory (KiB), and the two times of the calls if the
        program says them. None if it did not end within a minute."""
        words = [self.programs[name], self.folder / row.folder, "--workers", str(workers), *row.options]
        done = subprocess.run([self.folder / "measure", self.list(row, kind), lines, *words], capture_output=True,
                              text=True, check=False)
        numbers = done.stdout.split()
        if len(numbers) == 4 and int(numbers[3]) == 128 + signal.SIGKILL:
            say(f"{name} did not end at {row.name}.{kind} with {workers} workers")
            return None
        if len(numbers) != 4 or numbers[3] != "0":
            sys.exit(f"run.py: {name} failed at {row.name}.{kind}: {done.stdout} {done.stderr}")
        calls = re.search(r"^calls (\d+) (\d+)$", done.stderr, re.M)
        return tuple(map(int, [*numbers[:3], *(calls.groups() if calls else (0, 0))]))

    def times(self, row, workers, passes):
        """The figures of a row: the least of the passes, with the programs in turn; and the peak memory in MB."""
        kinds = [kind for kind in ("short", "long") if self.list(row, kind).exists()]
        runs = {(name, kind): [] for name in NAMES for kind in kinds}
        for _ in range(passes):
            for kind in kinds:
                for name in NAMES:
                    runs[name, kind].append(self.took(name, row, kind, workers))
        least = {key: [min(one) for one in zip(*[it for it in several if it])] for key, several in runs.items()}
        whole, calls = (0, 3) if workers == 1 else (1, 4)  # processor time of one worker, wall time of several
        figures = {}
        for key, name, place in (("program", "program", whole), ("oiio_text", "oiio", whole), ("c", "c", calls),
                                 ("oiio", "oiio", calls)):
            long, short = least[name, "long"], least.get((name, "short"), [0] * 5)
            if long and short and (long[place] or place == whole):
                figures[key] = round((long[place] - short[place]) / row.units, 4)
        memory = {name: round(least[name, "long"][2] / 1024) for name in ("program", "oiio") if least[name, "long"]}
        return figures, memory

    def differing(self, row):
        """How many lines of the long list differ from the program's, and by how much at most, for the other two."""
        lines = {}
        for name in NAMES:
            self.took(name, row, "long", 1, self.folder / "lines")
            text = (self.folder / "lines").read_text(encoding="utf-8")
            lines[name] = [it.split()[2:] for it in text.splitlines() if it.startswith(("tex ", "pixels "))]
        for name in ("c", "oiio"):
            by = [max(abs(int(a) - int(b)) for a, b in zip(*both)) for both in zip(lines["program"], lines[name], strict=True)]
            yield f"{name}: {sum(it > 0 for it in by)} of {len(by)} lines differ, by {max(by, default=0)} at most"


def measure(bench, asked):
    """The figures, and the load that was seen."""
    load, rows = Load(), []
    for row in (ROWS[name] for name in asked.rows.split(",")):
        say(f"{row.title}, load {load.look():.1f}")
        found = {workers: bench.times(row, workers, asked.passes) for workers in row.workers}
        rows.append({"name": row.name, "title": row.title, "unit": row.unit,
                     "times": {str(workers): figures for workers, (figures, _) in found.items()},
                     "memory": found[1][1]})
        if row.long:
            say("; ".join(bench.differing(row)))
    load.look()
    model = re.search(r"model name\s*: (.*)", Path("/proc/cpuinfo").read_text(encoding="utf-8"))
    figures = {"commit": output_of(["git", "-C", TOP, "describe", "--always", "--dirty", "--exclude", "*"]),
               "oiio": output_of(["pkg-config", "--modversion", "OpenImageIO"]),
               "processor": model[1] if model else platform.processor(), "processors": os.cpu_count(),
               "load": str(load), "passes": asked.passes, "rows": rows}
    return figures, load


def main():
    asked = arguments()
    folder = (asked.folder or Path(tempfile.mkdtemp(prefix="texcache_bench_"))).resolve()
    try:
        folder.mkdir(parents=True, exist_ok=True)
        programs = build(folder, asked)
        say(f"the files are made in {folder}")
        make(folder, [ROWS[name] for name in asked.rows.split(",")])
        figures, load = measure(Bench(folder, programs), asked)
    finally:
        if not asked.folder:
            shutil.rmtree(folder)
    print(draw.tables(figures))
    if not asked.write:
        return 0
    if load.is_too_high():
        say(f"{load} is above {MOST_LOAD} per processor: nothing is written")
        return 1
    if asked.rows != ",".join(ROWS) or figures["commit"].endswith("-dirty"):
        say("not all rows were measured, or sources were changed since the last commit: nothing is written")
        return 1
    draw.FIGURES.write_text(json.dumps(figures, indent=1) + "\n", encoding="utf-8")
    draw.write(figures)
    return 0


if __name__ == "__main__":
    sys.exit(main())
