#!/usr/bin/env python3
"""How long tools/prepare.py takes for 100 images beside OpenImageIO's maketx: 8 bits, uncompressed, in tiles of 64 by 64,
four at a time.

It runs the two in turn several times, and prints the least wall time and the least processor time of each, and the load
of the machine. It writes nothing into the repository.
"""
import argparse
import os
import random
import resource
import shutil
import subprocess
import sys
import tempfile
import time
from pathlib import Path

sys.path.insert(0, str(Path(__file__).resolve().parents[1] / "tools"))
from texcheck.common import TOP, Missing, add_program, program_of, tool  # noqa: E402
from texcheck.tiff import LITTLE, LONG, NARROW, RGB, SHORT, laid_out  # noqa: E402

MAKETX = "ls in | xargs -P4 -I{} maketx --threads 1 -d uint8 --compression none --tile 64 64 in/{} -o maketx/{}"


def image(side, seed):
    """An RGB image of noise, in strips of 16 rows."""
    dice = random.Random(seed)
    strips = [dice.randbytes(3 * side * 16) for _ in range(0, side, 16)]

    def of(offsets, sizes):
        return [(256, SHORT, [side]), (257, SHORT, [side]), (258, SHORT, [8] * 3), (259, SHORT, [1]), (262, SHORT, [RGB]),
                (273, LONG, offsets), (277, SHORT, [3]), (278, SHORT, [16]), (279, LONG, sizes), (284, SHORT, [1])]

    return laid_out(LITTLE, NARROW, [(strips, None, of)])


def timed(command, folder):
    """The seconds by the clock, and of the processors, of a command."""
    began, before = time.monotonic(), resource.getrusage(resource.RUSAGE_CHILDREN)
    subprocess.run(command, cwd=folder, stdout=subprocess.DEVNULL, check=True)
    after = resource.getrusage(resource.RUSAGE_CHILDREN)
    used = after.ru_utime + after.ru_stime - before.ru_utime - before.ru_stime
    return time.monotonic() - began, used


def main():
    asked = argparse.ArgumentParser(description=__doc__, formatter_class=argparse.RawDescriptionHelpFormatter,
                                    allow_abbrev=False)
    asked.add_argument("--images", type=int, default=100)
    asked.add_argument("--side", type=int, default=1024, help="of an image, a multiple of 16; 1024")
    asked.add_argument("--passes", type=int, default=3)
    add_program(asked, "texmake")
    args = asked.parse_args()
    if not shutil.which("maketx"):
        raise Missing("maketx is not installed; tools/setup installs it")
    program = program_of(args, "texmake")
    with tempfile.TemporaryDirectory() as room:
        (Path(room) / "in").mkdir()
        for number in range(args.images):
            (Path(room) / "in" / f"{number:03}.tif").write_bytes(image(args.side, number))
        commands = {"prepare.py": [TOP / "tools" / "prepare.py", "in", "prepare.py", "--jobs", "4", "--program", program],
                    "maketx": ["sh", "-c", MAKETX]}
        found = {it: [] for it in commands}
        for _ in range(args.passes):
            for name, command in commands.items():
                shutil.rmtree(Path(room) / name, ignore_errors=True)
                (Path(room) / name).mkdir()
                found[name].append(timed(command, room))
    print(f"{args.images} images of {args.side} by {args.side}, load {os.getloadavg()[0]:.1f} on {os.cpu_count()} processors")
    for name, passes in found.items():
        wall, used = (min(it) for it in zip(*passes))
        print(f"{name}: {wall:.1f} s by the clock, {used:.1f} s of processors")
    return 0


if __name__ == "__main__":
    tool(main)
