"""Lets each allocation of small runs fail in turn, one per run, and checks what is written. Then it lets all
allocations above 1 MiB fail, and with them every tile of an image.

The library failing_malloc.c is loaded in front of the C library's `malloc`. Each printed line must be the line of the
undisturbed run, or `no memory`. Otherwise the status must be 6, and complete rounds are printed. A lookup of stored
levels may be out of memory only after it has opened its file. If tiles cannot be allocated, it is known which requests
are answered uncached, how often, and with how many reads. A program with the address sanitizer has its own `malloc`
with such a limit, so only the test of tiles is run with it.
"""
import os
import shutil
import subprocess
import sys
import tempfile
from concurrent.futures import ThreadPoolExecutor
from pathlib import Path

from texcheck.common import TOP, Skips, add_program, program_of
from texcheck.tiff import LITTLE, Level, tiff

HELP = "small runs in which each allocation fails in turn"
FILES = TOP / "crates" / "texcache" / "data"

# Words, and lists, some of several rounds. No line of them tells what an earlier one left.
LISTS = [
    ([], ["info A.tif"]), ([], ["info A.tif", "sync", "info A.tif"]), ([], ["pixels 0 0 0 80 48 B.tif"]),
    ([], ["tex 32768 32768 32768 clamp clamp trilinear 1 A.tif", "sync", "tex 1 1 0 clamp clamp bilinear 3 B.tif"]),
    ([], ["texd 32768 8192 65536 0 0 0 clamp clamp 1 t.<UDIM>.tif", "info lzw.tif", "info none.tif"]),
    ([], ["hold 0 0 0 B.tif"]), ([], ["stat", "invalidate_all", "renew A.tif"]),
    ([], ["hold 0 0 0 A.tif", "sync", "tex 8192 8192 0 clamp clamp closest 1 A.tif"]),
]
MOST_GROWTHS = 4000

# A lookup of a stored level, of a file that was made invalid: in so little memory its tile is made again.
AGAIN = "tex 32768 32768 0 clamp clamp bilinear 1 A.tif"
AFRESH = [(["--budget", "0", *slots], [AGAIN, "invalidate A.tif", AGAIN]) for slots in ([], ["--slots", "0"])]

# A picture in one tile of 2 MiB: of the texel in column x of row y the sample is 3 x + 5 y, modulo 256. What is asked
# of it where no such tile finds memory, its lines and the line of the worker. The mean of 248, 251, 253 and 0 is 188.
LIMIT = 1 << 20
MIDDLE = "tex 32768 32768 0 clamp clamp bilinear 1 big.tif"
WANTING = [
    (["tex 0 96 0 clamp clamp closest 2 big.tif"], ["tex 1 3855 0"], "needs 1 hits 0 apart 1"),
    ([MIDDLE], ["tex 1 48316"], "needs 4 hits 0 apart 4"),
    ([MIDDLE, MIDDLE], ["tex 1 48316"] * 2, "needs 8 hits 0 apart 8"),
    (["texd 32768 32768 0 0 0 0 clamp clamp 1 big.tif"], ["texd 1 48316"], "needs 4 hits 0 apart 4"),
    # what wants for a tile, for a generated level and for a region
    (["hold 0 0 0 big.tif", "tex 0 0 65536 clamp clamp closest 1 big.tif", "pixels 0 0 0 1 1 big.tif",
      "info big.tif"], ["no memory"] * 3 + ["info 1 1024 2048 1 8 1 12"], "needs 2 hits 0"),
]


def listed(requests):
    return "".join(f"{it}\n" for it in requests)


def ran(program, shim, words, requests, workers, number):
    """What a run writes if this allocation fails, its status, and what failing_malloc.c noted."""
    with tempfile.TemporaryDirectory() as room:
        told = Path(room) / "refused"
        settings = {**os.environ, "LD_PRELOAD": shim, "REFUSED_GROWTH": str(number), "REFUSED_TOLD": str(told)}
        done = subprocess.run([program, "--workers", str(workers), *words, str(FILES)], env=settings,
                             stdout=subprocess.PIPE, input=listed(requests), text=True, stderr=subprocess.DEVNULL,
                             check=False)
        return done.stdout.splitlines(), done.returncode, told.read_text() if told.exists() else ""


def is_whole_rounds(lines, requests):
    """Whether these lines are all lines of the first rounds, for some number of rounds."""
    return len(lines) in {0, len(requests), *(at + 1 for at, it in enumerate(requests) if it == "sync")}


def is_right(found, status, calm, requests):
    """Whether a run that ran out of memory wrote only what it may."""
    lines = found[:len(requests)]
    are_right = all(it in (other, "no memory") for it, other in zip(lines, calm))
    if status in (0, 1):
        return are_right and len(lines) == len(requests)
    return are_right and status == 6 and is_whole_rounds(found, requests)


def growths_of(program, shim, words, requests, workers):
    """How many allocations failed, and the faults that were found."""
    calm, calm_status, calm_notes = ran(program, shim, words, requests, workers, 0)
    faults, what = [], f"{words} {requests}, {workers} workers"
    for number in range(1, MOST_GROWTHS):
        lines, status, notes = ran(program, shim, words, requests, workers, number)
        if "r" not in notes:
            if (lines, status) != (calm, calm_status):
                faults.append(f"{what}, nothing refused: {lines}, status {status}")
            return number - 1, faults
        if not is_right(lines, status, calm, requests):
            faults.append(f"{what}, growth {number}: {lines}, status {status}")
        is_last = status == 1 and workers == 1 and lines[len(requests) - 1] == "no memory"
        if requests[-1] == AGAIN and is_last and notes.count("o") <= calm_notes.count("o"):
            faults.append(f"{what}, growth {number}: memory was wanting, and no file was opened for it")
    return MOST_GROWTHS, [*faults, f"{requests}: more growths than were looked for"]


def run_wanting(program, shim, folder, words, requests):
    """What a run of one worker writes if each allocation above the limit fails, its status, and how often it reads."""
    is_checked = b"AddressSanitizer" in Path(program).read_bytes()
    limit = {"ASAN_OPTIONS": f"max_allocation_size_mb={LIMIT >> 20}:allocator_may_return_null=1"} if is_checked else {
        "LD_PRELOAD": shim, "REFUSED_ABOVE": str(LIMIT)}
    with tempfile.TemporaryFile() as given, tempfile.TemporaryFile() as written:
        given.write(listed(requests).encode())
        given.seek(0)
        child = subprocess.Popen([program, "--workers", "1", *words, folder], env={**os.environ, **limit}, stdin=given,
                                 stdout=written, stderr=subprocess.DEVNULL)
        os.waitid(os.P_PID, child.pid, os.WEXITED | os.WNOWAIT)
        counts = dict(it.split(": ") for it in Path(f"/proc/{child.pid}/io").read_text(encoding="ascii").splitlines())
        status = child.wait()
        written.seek(0)
        return written.read().decode().splitlines(), status, int(counts["syscr"])


def wanting_faults(program, shim, folder):
    """The faults that were found if no tile can be allocated, with slots and without."""
    (Path(folder) / "big.tif").write_bytes(tiff(LITTLE, [Level(1024, 2048, lambda x, y: [(3 * x + 5 * y) % 256],
                                                               tile=(1024, 2048))]))
    for slots in ("0", "1", "512"):
        for requests, lines, counts in WANTING:
            refused = lines.count("no memory")
            wanted = [*lines, f"worker 0 {counts}", f"total {len(lines)} refused {refused}"]
            found, status, _ = run_wanting(program, shim, folder, ["--slots", slots], requests)
            if (found, status) != (wanted, 1 if refused else 0):
                yield f"--slots {slots}, {requests}: {found}, status {status}"
        twice, once = (run_wanting(program, shim, folder, ["--slots", slots], it)[2] for it in ([MIDDLE] * 2, [MIDDLE]))
        # the second lookup finds its four parts in the slots where there are enough
        if (twice == once) != (slots == "512"):
            yield f"--slots {slots}: {once} reads for one lookup, and {twice} for two"


def add_arguments(parser):
    add_program(parser, "texcache")
    Skips.add_argument(parser)


def run_all(program, compiler, room):
    """The faults that were found, and how many allocations failed."""
    source, shim = Path(__file__).with_name("failing_malloc.c"), Path(room) / "shim.so"
    subprocess.run([compiler, "-O1", "-shared", "-fPIC", "-o", shim, source, "-ldl"], check=True)
    faults = list(wanting_faults(program, str(shim), room))
    if b"AddressSanitizer" in Path(program).read_bytes():
        return faults, 0
    with ThreadPoolExecutor(len(os.sched_getaffinity(0))) as pool:
        found = list(pool.map(lambda it: growths_of(program, str(shim), *it),
                              [(*it, workers) for it in LISTS + AFRESH for workers in (1, 4)]))
    return faults + [it for _, them in found for it in them], sum(it for it, _ in found)


def run(args):
    program, skips = str(program_of(args, "texcache")), Skips(args)
    compiler = next(filter(None, map(shutil.which, ("cc", "gcc", "clang"))), None)
    if skips.lacks(None if compiler else "a C compiler", "failed-allocations"):
        return 1 if skips.failed else 0
    with tempfile.TemporaryDirectory() as room:
        faults, count = run_all(program, compiler, room)
    print(*faults[:20], sep="\n", file=sys.stderr, end="\n" if faults else "")
    print(f"failed-allocations: {count} allocations failed, and {len(faults)} of these runs are wrong")
    return 1 if faults else 0
