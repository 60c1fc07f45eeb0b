"""Runs texcache while the files of its folder are replaced, and looks for answers that mix two versions.

All texels of one version of a file have the same value, and each version has a different one. So a lookup that mixes
two versions has a value that no version has. Every fourth file is in strips, every second has 16 bits, and the budget
is small, so that tiles are read again and again. New versions are written beside the files and renamed over them for as
long as the program runs. Each answer must have the value of one version. Lines of one file with the same generation
must have the same version, and a later generation a later version.
"""
import random
import struct
import subprocess
import tempfile
import threading
from collections import defaultdict
from functools import partial
from pathlib import Path

from texcheck.common import add_program, program_of
from texcheck.tiff import LITTLE, NARROW, Level, fields, laid_out

HELP = "lookups while the files are replaced"
FILES, SIDE, TILE, ROWS, BUDGET = 8, 256, 64, 8, 1 << 18


def picture(value, wide, tiled):
    """A file of SIDE by SIDE texels of one channel, all of this value."""
    sample = struct.pack("<H", value) if wide else bytes([value & 255])
    level = Level(SIDE, SIDE, lambda x, y: [value], 8 * len(sample), tile=(TILE, TILE) if tiled else None, rows=ROWS)
    blocks = [sample * TILE * TILE] * (SIDE // TILE) ** 2 if tiled else [sample * SIDE * ROWS] * (SIDE // ROWS)
    return laid_out(LITTLE, NARROW, [(blocks, None, partial(fields, level))])


def value_of(version, wide):
    """The value that an answer has: of 8 bits 257 times the sample."""
    return version * 300 + 7 if wide else (version % 255 + 1) * 257


class Replaced(threading.Thread):
    """Replaces files of the folder by their next versions until it is told to end."""

    def __init__(self, folder, seed):
        super().__init__()
        self.folder, self.chance, self.ends = folder, random.Random(seed), threading.Event()
        self.versions = [0] * FILES
        for file in range(FILES):
            self.put(file)

    def put(self, file):
        wide, tiled = file % 2 == 1, file % 4 != 3
        value = value_of(self.versions[file], wide)
        part = self.folder / f".{file}.part"
        part.write_bytes(picture(value if wide else value // 257, wide, tiled))
        part.rename(self.folder / f"{file}.tif")

    def run(self):
        while not self.ends.wait(0.0005):
            file = self.chance.randrange(FILES)
            if self.versions[file] < 200:
                self.versions[file] += 1
                self.put(file)


def line_of(chance):
    s, t = chance.randrange(65536), chance.randrange(65536)
    lod = chance.choice((0, 0, 0, 32768, 65536, 98304))
    kind = chance.choice(("closest", "bilinear", "trilinear"))
    return f"tex {s} {t} {lod} periodic periodic {kind} 1 {chance.randrange(FILES)}.tif"


def looked_at(requests, answers):
    """Problems, and how many lines were looked at, generations named, and lines that said `again`."""
    values, said, problems = defaultdict(set), 0, []
    count = 0
    for request, answer in zip(requests, answers):
        words = answer.split()
        file = int(request.split()[-1].split(".")[0])
        if "again" in words:
            said += 1
        elif words[0] == "tex" or words[0].isdigit() or words[0] == "ok":
            count += 1
            values[file, int(words[1])].add(int(words[-1]))
        elif "fault" not in answer and "lacks" not in answer:
            problems.append(f"{request}: {answer}")
    for (file, generation), found in sorted(values.items()):
        known = {value_of(version, file % 2 == 1): version for version in range(201)}
        if len(found) != 1 or not found <= known.keys():
            problems.append(f"file {file}, generation {generation}: {sorted(found)}")
    for file in range(FILES):
        known = {value_of(version, file % 2 == 1): version for version in range(201)}
        order = [known.get(min(values[at])) for at in sorted(values) if at[0] == file]
        if None not in order and order != sorted(order):
            problems.append(f"file {file}: versions {order}")
    return problems, count, len(values), said


def add_arguments(parser):
    add_program(parser, "texcache")
    parser.add_argument("--lines", type=int, default=20000, help="lookups of a run; 20000 if it is not given")
    parser.add_argument("--workers", type=int, nargs="+", default=[1, 4, 16], help="a run for each; 1 4 16")


def run(args):
    program, failed = program_of(args, "texcache"), 0
    for workers in args.workers:
        chance = random.Random(workers)
        requests = [line_of(chance) for _ in range(args.lines)]
        with tempfile.TemporaryDirectory() as name:
            replaced = Replaced(Path(name), workers)
            replaced.start()
            try:
                ran = subprocess.run([program, name, "--workers", str(workers), "--budget", str(BUDGET)],
                                     input="\n".join(requests) + "\n", capture_output=True, text=True, check=False)
            finally:
                replaced.ends.set()
                replaced.join()
            problems, count, generations, said = looked_at(requests, ran.stdout.splitlines())
        failed += bool(problems) or not count
        for problem in problems[:10]:
            print(problem)
        print(f"{workers} workers: {count} answers of {sum(replaced.versions) + FILES} versions, {generations} "
              f"generations named, {said} again, status {ran.returncode}, {len(problems)} problems")
    return 1 if failed else 0
