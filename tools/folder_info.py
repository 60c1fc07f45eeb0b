#!/usr/bin/env python3
"""Says for each file of a folder whether texcache accepts it, and what helps if it does not.

    python3 tools/folder_info.py FOLDER

For each accepted file it prints a line: width and height, channels and bits, the stored levels and all levels, tiles
or strips of level 0, and the bytes that all levels together take in the cache, which counts two for each sample. The
facts come from the program itself (docs/REQUESTS.md).
"""
import argparse
import os
import shlex
import subprocess
import sys
from pathlib import Path

from texcheck.common import add_program, program_of, tool
from texcheck.meanings import counted, refusal
from texprepare.sizes import size_text

MOST_LINES = 1000


def asked(program, folder, requests, *words):
    """The answers of one worker to requests, without the closing lines."""
    given = "".join(f"{it}\n" for it in requests)
    ran = subprocess.run([str(program), *words, "--workers", "1", "--", folder], input=given, text=True,
                         stdout=subprocess.PIPE, stderr=subprocess.DEVNULL, check=False)
    if ran.returncode > 1:
        sys.exit(f"folder_info.py: texcache ended with status {ran.returncode}: {ran.stdout.strip()}")
    return ran.stdout.splitlines()[:len(requests)]


def sides(line):
    """Width and height of the cell in the answer to a hold; None if the answer is a refusal."""
    return tuple(map(int, line.split(" ")[4:])) if line.startswith("held ") else None


def kept(width, height, channels, levels):
    """The bytes that the texels of all levels take in the cache."""
    return sum(max(1, width >> n) * max(1, height >> n) * channels * 2 for n in range(levels))



def cut_text(whole, small, large):
    """Whether level 0 is in tiles or in strips. The cells of a stripped file follow --autotile; those of a tiled file
    are its tiles, whatever --autotile is."""
    if small is None or large is None:
        return "cells above 32 MiB"
    if small == large and small != whole:
        return f"tiles of {small[0]} by {small[1]}"
    if small == large:
        return "one cell"
    return "strips"


def described(name, info, small, large):
    found = refusal(info)
    if found:
        means, helps = found
        more = f"\n    What helps: {helps.replace('{name}', shlex.quote(name))}" if helps else ""
        return f"{name}: {means}{more}"
    _, _, width, height, channels, depth, stored, levels = info.split(" ")
    whole = (int(width), int(height))
    room = size_text(kept(*whole, int(channels), int(levels)))
    cut = cut_text(whole, small, large)
    return (f"{name}: {width} by {height}, {counted(channels, 'channel')} of {depth} bits, {stored} of {levels} levels "
            f"stored, {cut}, {room} in the cache")


def lines_of(program, folder):
    names = sorted(it for it in os.listdir(folder) if (Path(folder) / it).is_file() and "\n" not in it)
    for first in range(0, len(names), MOST_LINES):
        some = names[first:first + MOST_LINES]
        infos = asked(program, folder, [f"info {it}" for it in some])
        # each hold is dropped, because a worker has at most four
        holds = [line for it in some for line in (f"hold 0 0 0 {it}", "drop")]
        small, large = (asked(program, folder, holds, "--autotile", side)[::2] for side in ("16", "4096"))
        for row in zip(some, infos, map(sides, small), map(sides, large)):
            yield described(*row)


def main():
    words = argparse.ArgumentParser(description=__doc__, formatter_class=argparse.RawDescriptionHelpFormatter)
    words.add_argument("folder", type=Path, metavar="FOLDER")
    add_program(words, "texcache")
    args = words.parse_args()
    if not args.folder.is_dir():
        words.error(f"there is no folder {args.folder}")
    lines = list(lines_of(program_of(args, "texcache"), os.path.abspath(args.folder)))
    print(*lines, sep="\n")
    if any(": the file is not accepted: " in it for it in lines):
        print(f"All images at once: tools/prepare.py {shlex.quote(str(args.folder))} DEST --convert")


if __name__ == "__main__":
    tool(main)
