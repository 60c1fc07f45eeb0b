#!/usr/bin/env python3
"""How much memory does a scene need? Runs a list of requests with smaller and smaller budgets, and shows when the same
tiles have to be read from the files again and again.

    python3 tools/hit_curve.py FOLDER LIST
    python3 tools/hit_curve.py FOLDER LIST --most 1G --least 16M --svg curve.svg --workers 1

The first budget is --most, and each next one is half as large, down to --least. For each it prints a line: the calls
that read a file, the MiB that they read, the seconds of processor time, and the most memory that the program took.
As long as the budget holds what the scene uses, the reads stay the same; below that they rise. The last line names the
smallest budget before they rise.

A SIZE is in MiB, or has K, M or G after it. Further options go to texcache as they are, as --workers 1: with one
worker the reads are the same at each run. A `<` before the memory means that the program took no more than this
script, which the system then counts in its place. The reads of the list itself are left out.
"""
import argparse
import os
import resource
import signal
import subprocess
import sys
import tempfile
import threading
from collections import namedtuple
from itertools import takewhile
from pathlib import Path
from xml.sax.saxutils import escape

from texcheck.common import add_program, program_of, tool
from texcheck.words import read_arguments

KIB, MIB, GIB = 2 ** 10, 2 ** 20, 2 ** 30
INK, BLUE, AMBER = "#1f2430", "#3b6ea8", "#c98a1b"
TAIL = 4096
# two runs of the same work may differ by this number of reads, and by one in a hundred
NOISE = 2

# A run under a budget: the calls that read, the bytes that they read, the seconds of a processor, the bytes of memory,
# and the lines that close it.
Run = namedtuple("Run", "budget calls read seconds memory closing")


def size_of(text):
    """A SIZE in bytes."""
    units = {"K": KIB, "M": MIB, "G": GIB}
    number, unit = (text[:-1], units[text[-1]]) if text[-1:] in units else (text, MIB)
    return int(float(number) * unit)


def size_text(size):
    for unit, letter in ((GIB, "G"), (MIB, "M")):
        if size >= unit:
            return f"{size / unit:g} {letter}iB"
    return f"{size / KIB:g} KiB"


def numbers_of(pid):
    """The system's counters of a process that has ended and was not waited for yet."""
    lines = Path(f"/proc/{pid}/io").read_text(encoding="ascii").splitlines()
    return {name: int(value) for name, value in (it.split(": ") for it in lines)}


def last_of(stream):
    """The last lines of a stream."""
    tail = b""
    while part := stream.read1(65536):
        tail = (tail + part)[-TAIL:]
    return tail.decode(errors="replace").splitlines()


def run(program, folder, requests, words, budget, seconds):
    """Runs the list with a budget; None if that takes longer than `seconds`."""
    with open(requests, "rb") as given:
        child = subprocess.Popen([program, *words, "--budget", str(budget), "--", folder], stdin=given,
                                 stdout=subprocess.PIPE, stderr=subprocess.DEVNULL)
    timer = threading.Timer(seconds, child.kill)
    timer.start()
    closing = [it.split(" ") for it in last_of(child.stdout) if it.startswith("worker ")]
    os.waitid(os.P_PID, child.pid, os.WEXITED | os.WNOWAIT)
    found = numbers_of(child.pid)
    timer.cancel()
    _, status, used = os.wait4(child.pid, 0)
    child.returncode = os.waitstatus_to_exitcode(status)
    if child.returncode == -signal.SIGKILL:
        return None
    if child.returncode not in (0, 1):
        sys.exit(f"hit_curve.py: texcache ended with status {child.returncode}")
    return Run(budget, found["syscr"], found["rchar"], used.ru_utime + used.ru_stime, 1024 * used.ru_maxrss, closing)


def runs_of(program, folder, requests, words, sizes, seconds):
    """A run with each budget, until one takes too long. Reads of the list itself are subtracted."""
    long = Path(requests).stat().st_size
    with tempfile.NamedTemporaryFile() as idle:
        # a list of the same length that starts two workers and reads no file
        idle.write(b"drop\ndrop\n".ljust(long, b"#"))
        idle.flush()
        own = run(program, folder, idle.name, words, sizes[0], seconds)
    for size in sizes:
        found = own and run(program, folder, requests, words, size, seconds)
        if not found:
            print(f"{size_text(size):>10} takes more than {seconds:g} s; --seconds allows more")
            return
        yield found._replace(calls=found.calls - own.calls, read=found.read - own.read)


def budgets(most, least):
    while most > least:
        yield most
        most //= 2
    yield least


def memory_text(size):
    """The memory of a program that this script has started, in MiB."""
    own = 1024 * resource.getrusage(resource.RUSAGE_SELF).ru_maxrss
    return f"{size / MIB:.1f}" if size > own else f"< {own / MIB:.1f}"


def row(it):
    return (f"{size_text(it.budget):>10} {it.calls:>10} {it.read / MIB:>10.1f} {it.seconds:>9.3f} "
            f"{memory_text(it.memory):>11}")


def verdict(runs):
    """Which budget is enough. The runs begin with the largest budget."""
    greatest, least = runs[0], runs[-1]
    most = greatest.calls + NOISE + greatest.calls // 100
    enough = list(takewhile(lambda it: it.calls <= most, runs))[-1]
    if enough is greatest:
        return f"the reads still fall at {size_text(greatest.budget)}; --most tries more"
    if enough is least:
        return f"{size_text(least.budget)} is enough; --least tries less"
    return f"{size_text(enough.budget)} is enough: with more the files are read no less"


def needed(it):
    needs, hits = (sum(int(line[place]) for line in it.closing) for place in (3, 5))
    return f"{needs} cells were needed; {hits} of them were among the two that their worker had needed last"


def line(values, left, top, width, height):
    """The points of a line in the picture."""
    most = 1.15 * max([*values, 1e-9])
    step = width / max(1, len(values) - 1)
    return [(left + step * k, top + height - height * value / most) for k, value in enumerate(values)]


def svg(runs, title, is_reads_only):
    """A picture of the reads, and of the seconds, over the budget."""
    left, top, width, height = 70, 60, 520, 220
    parts = [f'<rect x="{left}" y="{top}" width="{width}" height="{height}" fill="none" stroke="{INK}"/>']

    def words(x, y, text, fill=INK, anchor="middle"):
        place = f'x="{x:.1f}" y="{y:.1f}" font-size="12" fill="{fill}" text-anchor="{anchor}"'
        parts.append(f"<text {place}>{escape(text)}</text>")

    words(left, 24, title, anchor="start")
    rows = [([it.calls for it in runs], BLUE, f"reads, at most {max(it.calls for it in runs)}")]
    if not is_reads_only:
        rows.append(([it.seconds for it in runs], AMBER,
                     f"seconds of a processor, at most {max(it.seconds for it in runs):.3g}"))
    for row, (values, fill, name) in enumerate(rows):
        places = line(values, left, top, width, height)
        path = " ".join(f"{x:.1f},{y:.1f}" for x, y in places)
        parts.append(f'<polyline points="{path}" fill="none" stroke="{fill}" stroke-width="2"/>')
        words(left + 220 * row, 46, name, fill, "start")
    for (x, y), it in zip(line([it.calls for it in runs], left, top, width, height), runs):
        parts.append(f'<circle cx="{x:.1f}" cy="{y:.1f}" r="3" fill="{BLUE}"/>')
        words(x + 6, y - 6, str(it.calls), BLUE, "start")
        words(x, top + height + 18, size_text(it.budget))
    words(left + width / 2, top + height + 38, "budget")
    head = (f'<svg xmlns="http://www.w3.org/2000/svg" width="{left + width + 70}" height="{top + height + 50}" '
            f'font-family="sans-serif">')
    ground = '<rect width="100%" height="100%" fill="#ffffff"/>'
    return "\n".join([head, ground, *parts, "</svg>"]) + "\n"


def arguments():
    """The options of this script, and those that are handed on to texcache."""
    asked = argparse.ArgumentParser(description=__doc__, formatter_class=argparse.RawDescriptionHelpFormatter,
                                    allow_abbrev=False, usage="%(prog)s FOLDER LIST [options] [options of texcache]")
    asked.add_argument("folder", metavar="FOLDER", help="the folder with the images")
    asked.add_argument("list", metavar="LIST", type=Path, help="the file with the requests (docs/REQUESTS.md)")
    asked.add_argument("--most", type=size_of, default=256 * MIB, metavar="SIZE", help="the first budget; 256M")
    asked.add_argument("--least", type=size_of, default=MIB, metavar="SIZE", help="the last budget; 1M")
    asked.add_argument("--seconds", type=float, default=20, metavar="N", help="stop at a run that takes longer; 20")
    asked.add_argument("--svg", type=Path, metavar="FILE", help="draw the reads and the seconds over the budget")
    asked.add_argument("--title", help="the title of that picture")
    asked.add_argument("--reads-only", action="store_true", help="draw the reads alone")
    asked.add_argument("--check", action="store_true", help="compare the picture with FILE, and write nothing")
    add_program(asked, "texcache")
    given, words = asked.parse_known_args()
    if given.least > given.most:
        asked.error(f"--least {size_text(given.least)} is more than --most {size_text(given.most)}")
    wrong = read_arguments([*words, "--", given.folder])[1]
    if wrong:
        asked.error(wrong)
    if not given.list.is_file():
        asked.error(f"there is no file {given.list}")
    return given, words


def main():
    given, words = arguments()
    program = program_of(given, "texcache")
    print(f"{'budget':>10} {'reads':>10} {'MiB read':>10} {'seconds':>9} {'memory MiB':>11}", flush=True)
    runs = []
    for it in runs_of(str(program), os.path.abspath(given.folder), given.list, words,
                      list(budgets(given.most, given.least)), given.seconds):
        runs.append(it)
        print(row(it), flush=True)
    if not runs:
        sys.exit(1)
    print(needed(runs[0]))
    print(verdict(runs))
    runs.reverse()
    if given.svg:
        title = given.title or f"{Path(given.list).name} over {Path(given.folder).resolve().name}"
        drawn = svg(runs, title, given.reads_only)
        if not given.check:
            given.svg.write_text(drawn, encoding="utf-8")
        elif not given.svg.is_file() or given.svg.read_text(encoding="utf-8") != drawn:
            sys.exit(f"hit_curve.py: {given.svg} is not the picture that is drawn")


if __name__ == "__main__":
    tool(main)
