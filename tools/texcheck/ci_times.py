"""Runs CI's proofs (`rt ci`), or another command of `rt`, and prints how many processor seconds each crate took.

It works in the current folder and ends with the status of the command. After the output of the command comes a table
with a line for each crate, the most expensive first. The columns are its proof, its tests (their proof and their run),
its must-fail edits, and everything else, such as building and running a program. Then come the single edits. `whole
check` is the check of the unchanged crate, with which its edits begin.

How it counts: every half second it reads from /proc how much time each process of the command has used, without its
children, and keeps the last reading. A process belongs to the command if it descends from it, or is in the session of
such a process. Its arguments say which crate it works on, and on what: the word after `--crate-name`, `--test` for
tests, a working folder `rt-edit-..` for an edit, a program `NAME` or `NAME_tests` that is run. Otherwise they are taken
from the process that started it. Time that a process uses after its last reading is in no line. The line `not seen` has
it: the difference to what the system counts for the command and all its children. The seconds are processor seconds,
so a busy machine changes them little; the line `wall` is the time by the clock.
"""
import os
import re
import resource
import signal
import subprocess
import time
from pathlib import Path

HELP = "run rt ci, or another command of rt, and say what each crate cost"
PERIOD = 0.5
TICKS = os.sysconf("SC_CLK_TCK")
KINDS = ["proof", "tests", "edits", "other"]
NO_CRATE = "rt itself"
RUN = re.compile(r"/rt-run-[^/]+/bin/(\w+?)(_tests)?$")


def label_of(words, folder, inherited):
    """The crate and the kind of a process, by its words and the folder that it works in."""
    if "--crate-name" in words[:-1]:
        crate = words[words.index("--crate-name") + 1]
        if Path(folder).name.startswith("rt-edit-"):
            return crate, "edits"
        if "--test" in words:
            return crate, "tests"
        return crate, "other" if "--crate-checked" in words else "proof"
    for run in filter(None, map(RUN.search, words)):
        return run[1], "tests" if run[2] else "other"
    return inherited


def stat_of(pid):
    """The parent, the session, the ticks and the start of a process."""
    fields = Path(f"/proc/{pid}/stat").read_text().rpartition(")")[2].split()
    return int(fields[1]), int(fields[3]), int(fields[11]) + int(fields[12]), int(fields[19])


def words_of(pid):
    words = Path(f"/proc/{pid}/cmdline").read_bytes().decode(errors="replace").split("\0")
    try:
        return words, os.readlink(f"/proc/{pid}/cwd")
    except OSError:
        return words, ""


def edit_of(crate, folder):
    """The edit that is tried in a folder: the file that it names has its new text, and not its old one."""
    for edit in sorted(Path("crates", crate, "must-fail").glob("*.edit")):
        lines = [it.partition(": ")[::2] for it in edit.read_text().splitlines()]
        file, old, new = ([text for word, text in lines if word == it][:1] for it in ("file", "old", "new"))
        text = Path(folder, *file).read_text()
        if new and old and new[0] in text and text.count(old[0]) == new[0].count(old[0]):
            return edit.stem
    return "whole check"


class Seen:
    """What was last read of a process: its crate and kind, the edit that it tries, and the ticks that it has used."""

    def __init__(self, label):
        self.label, self.ticks, self.edit = label, 0, None

    def read(self, pid, ticks):
        self.ticks = ticks
        try:
            words, folder = words_of(pid)
            self.label = label_of(words, folder, self.label)
            if self.label[1] == "edits" and self.edit is None and "--crate-name" in words:
                self.edit = edit_of(self.label[0], folder)
        except OSError:
            pass  # it ended meanwhile


class Watch:
    """The processes of a command, by their number and start, and their sessions."""

    def __init__(self, pid):
        self.seen, self.sessions, self.first = {}, set(), pid

    def read(self):
        """Reads all processes of the command that run now, each after the one that started it."""
        now, ours = [], {}
        for pid in filter(str.isdigit, os.listdir("/proc")):
            try:
                parent, session, ticks, start = stat_of(pid)
                now.append((start, int(pid), parent, session, ticks))
            except (OSError, IndexError):
                pass  # it ended meanwhile
        for start, pid, parent, session, ticks in sorted(now):
            if pid == self.first or parent in ours or session in self.sessions:
                over = ours[parent].label if parent in ours else (NO_CRATE, "other")
                self.seen.setdefault((pid, start), Seen(over))
            if (pid, start) in self.seen:
                ours[pid] = self.seen[pid, start]
                ours[pid].read(pid, ticks)
                self.sessions |= {session} - {os.getsid(0)}

    def sums(self):
        """The seconds of each crate, by kind."""
        table = {}
        for it in self.seen.values():
            crate, kind = it.label
            row = table.setdefault(crate, dict.fromkeys(KINDS, 0.0))
            row[kind] += it.ticks / TICKS
        return table

    def edits(self):
        """The seconds of each edit that was tried, with its crate."""
        table = {}
        for it in self.seen.values():
            if it.edit:
                name = it.label[0], it.edit
                table[name] = table.get(name, 0.0) + it.ticks / TICKS
        return table


def row(name, values):
    return f"{name:<18}" + "".join(f"{it:>9.1f}" for it in values)


def say(table, edits, counted, wall):
    """Prints the table of the seconds."""
    print(f"\n{'processor seconds':<18}" + "".join(f"{it:>9}" for it in [*KINDS, "all"]))
    total = lambda it: sum(table[it].values())
    for crate in sorted(table, key=total, reverse=True):
        print(row(crate, [*table[crate].values(), total(crate)]))
    sums = [sum(table[it][kind] for it in table) for kind in KINDS]
    print(row("in all", [*sums, sum(sums)]))
    for (crate, edit), seconds in sorted(edits.items(), key=lambda it: -it[1]):
        print(row(crate, [seconds]), edit)
    print(f"not seen {counted - sum(sums):.1f}, counted by the system {counted:.1f}, wall {wall:.1f}")


def add_arguments(parser):
    parser.add_argument("words", nargs="*", default=["ci"], metavar="WORD", help="the command of rt; ci if none is given")


def run(args):
    began = time.monotonic()
    # a group of its own, to be stopped as one, and the session of the caller, whose priority it then has
    child = subprocess.Popen(["rt", *args.words], preexec_fn=os.setpgrp)
    for it in (signal.SIGINT, signal.SIGTERM):
        signal.signal(it, lambda number, frame: os.killpg(child.pid, number))
    watch = Watch(child.pid)
    while child.poll() is None:
        watch.read()
        time.sleep(PERIOD)
    used = resource.getrusage(resource.RUSAGE_CHILDREN)
    say(watch.sums(), watch.edits(), used.ru_utime + used.ru_stime, time.monotonic() - began)
    return child.returncode if child.returncode >= 0 else 128 - child.returncode
