"""Proves and builds a program or the library for C, with the crates below it: what ./build does."""
import argparse
import contextlib
import fcntl
import os
import re
import shutil
import subprocess
import sys
import tempfile
import time
from pathlib import Path

from texcheck.archive import ARCHIVE, archive_of
from texcheck.common import TOP, Missing, said
from texcheck.dist import DIST, dist, proved_parts
from texcheck.tree import PACKED, Parts
from texcheck.sources import copied, crates_below, dependencies, files_of, proved
from texcheck.unproved import LIBRARY, PROGRAMS, build

# how long it took to prove texcache from nothing: with two processors at work, and with four beside some other work
USUAL = "from nothing this takes about 60 minutes on two processors, and about 40 on four"
ABOUT = f"""Proves and builds a program, or the library for programs in C ({LIBRARY}), with the crates below it.

Crates that do not use each other are proved at the same time, if there is enough memory. What an earlier run proved is
used again if no source has changed. {USUAL[0].upper()}{USUAL[1:]}.
The program is left in crates/NAME/out/NAME, the library in crates/{LIBRARY}/out/{ARCHIVE}: one archive, with
the toolchain's C part. With {DIST} in place of NAME it packs both programs and the library, which are proved first if
they are not: texcache-VERSION-linux-x86_64.tar.gz and a package of Debian in out/dist. It prints the commit and hashes.
"""
# what a check may take, in bytes
NEED = 4 << 30


def say(text):
    print(f"build: {text}", file=sys.stderr, flush=True)


def minutes(seconds):
    return f"{seconds:.0f} s" if seconds < 100 else f"{seconds / 60:.0f} min"


def side_by_side():
    """How many crates to prove at once: one per processor, fewer if there is not enough memory."""
    available = re.search(r"MemAvailable: +(\d+) kB", Path("/proc/meminfo").read_text(encoding="ascii"))
    return max(1, min(len(os.sched_getaffinity(0)), int(available[1]) * 1024 // NEED))


class Progress:
    """Which crates are done, and an estimate of the time for the others, by their numbers of lines."""

    def __init__(self, crates):
        self.crates, self.began = crates, time.monotonic()
        self.lines = {it: sum(file.read_bytes().count(b"\n") for file in files_of(it, ("src", "proofs"), alone=True))
                      for it in crates}
        self.done = []

    def at(self, jobs):
        """The crates that can be proved now, because all that they use is proved."""
        below = dependencies()
        return [it for it in self.crates if it not in self.done
                and all(other in self.done for other in below[it] if other in below)][:jobs]

    def step(self, name, jobs):
        self.done.append(name)
        left = [it for it in self.crates if it not in self.done]
        spent = time.monotonic() - self.began
        rest = spent * sum(self.lines[it] for it in left) / max(1, sum(self.lines[it] for it in self.done))
        say(f"{name} is done; {len(self.done)} of {len(self.crates)} crates in {minutes(spent)}"
            + (f", {len(left)} left, some {minutes(rest)}; now {', '.join(self.at(jobs))}" if left else ""))


def handed_back(crates, room):
    """Moves what `rt` kept of each crate from the copy into the crate's own folder, so that later builds can use it."""
    for crate in crates:
        with open_folder(TOP / "crates" / crate) as folder:
            # `rt` locks a crate in the same way
            fcntl.flock(folder, fcntl.LOCK_EX)
            for part in ("incremental", "rlib"):
                made, own = (it / "crates" / crate / "out" / part for it in (room, TOP))
                if made.is_dir():
                    shutil.rmtree(own, ignore_errors=True)
                    own.parent.mkdir(exist_ok=True)
                    shutil.move(made, own)


@contextlib.contextmanager
def open_folder(path):
    folder = os.open(path, os.O_RDONLY)
    try:
        yield folder
    finally:
        os.close(folder)


def prove(name, jobs, room):
    """Proves the crates in a copy of the repository, several at once."""
    crates = crates_below(name)
    copied(name, room, ("src", "specs", "proofs"))
    progress = Progress(crates)
    say(f"{len(crates)} crates, {jobs} at a time; begins with {', '.join(progress.at(jobs))}")
    words, kept = ["rt", "all", "check", "--jobs", str(jobs)], []
    with subprocess.Popen(words, cwd=room, stdin=subprocess.DEVNULL, stdout=subprocess.PIPE, stderr=subprocess.STDOUT,
                          text=True, errors="replace") as child:
        try:
            for line in child.stdout:
                kept.append(line)
                if line.startswith("== ") and line[3:].strip() in crates:
                    # (whether it is proved follows at the end)
                    progress.step(line[3:].strip(), jobs)
        except BaseException:
            child.terminate()
            raise
        finally:
            child.wait()
            handed_back(crates, room)
    if child.returncode:
        print("".join(kept)[-6000:], file=sys.stderr)
    return child.returncode == 0



def finish(name):
    """Builds the program, or the library, over the crates that are proved."""
    folder = TOP / "crates" / name
    is_program = (folder / "src" / "main.rt").is_file()
    # a program is run then: it says that the arguments are bad, or does its stored run, whatever its status
    status, text = said(["rt", "run" if is_program else "lib"], cwd=folder)
    is_made = proved(name) if is_program or name == LIBRARY else status == 0
    if not is_made:
        print(text[-6000:], file=sys.stderr)
    return bool(is_made)


def build_proved(name, jobs):
    """Proves and builds it, unless it is built and no source has changed since. Returns whether it is there."""
    is_done = bool(proved(name))
    if is_done:
        say(f"{name} is proved and built, and no source has changed since")
    else:
        began = time.monotonic()
        say(USUAL)
        with tempfile.TemporaryDirectory(prefix="texcache-build-") as room:
            is_done = prove(name, jobs, Path(room)) and finish(name)
        say(f"{name} is {'proved and built' if is_done else 'not proved'}, after {minutes(time.monotonic() - began)}")
    if is_done and name == LIBRARY:
        archive_of(proved(LIBRARY))
    return is_done


def build_unproved(name):
    """Builds it without a proof, and prints its place."""
    place = build(name)
    print(os.path.relpath(archive_of(place) if name == LIBRARY else place))
    return True


def build_all(args):
    """Builds what the arguments name. Returns whether all of it is there."""
    jobs = args.jobs or side_by_side()
    names = PACKED if args.name == DIST else (args.name,)
    is_done = all(build_unproved(it) if args.unproved else build_proved(it, jobs) for it in names)
    if is_done and args.name == DIST:
        print(*dist(Parts(True) if args.unproved else proved_parts()), sep="\n")
    return is_done


def main():
    parser = argparse.ArgumentParser(prog="./build", description=ABOUT, allow_abbrev=False,
                                     formatter_class=argparse.RawDescriptionHelpFormatter)
    parser.add_argument("name", nargs="?", default="texcache", metavar="NAME",
                        help=f"{', '.join(PROGRAMS)}, {LIBRARY}, {DIST}, or another crate; texcache if none is given")
    parser.add_argument("--unproved", action="store_true", help="build it without a proof, in about a minute")
    parser.add_argument("--jobs", type=int, metavar="N", help="how many crates are proved at once")
    args = parser.parse_args()
    if args.name not in (*dependencies(), DIST):
        parser.error(f"there is no crate {args.name}")
    if args.unproved and args.name not in (*PROGRAMS, LIBRARY, DIST):
        parser.error(f"{args.name} is not built unproved; those are {', '.join(PROGRAMS)}, {LIBRARY}, {DIST}")
    try:
        return 0 if build_all(args) else 1
    except (Missing, FileNotFoundError) as error:
        say(error)
        return 1
