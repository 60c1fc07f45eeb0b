#!/usr/bin/env python3
"""Explains in words what texcache answered to a list of requests.

    python3 tools/explain.py LIST ANSWERS

LIST is the list of requests, ANSWERS what the program printed for it. For each request the script prints its line in
the list, the round and the worker that answered it, the request, the answer, what the answer means, and what helps if
it is a refusal. It reads these two files only (docs/REQUESTS.md).
"""
import argparse
import shlex
import sys
from pathlib import Path

from texcheck.counts import MOST_OF_A_ROUND, texels
from texcheck.meanings import counted, ending, refusal
from texcheck.words import name_in

# how many values of a region are shown
SHOWN = 8


def requests_of(text):
    """The requests of a list, each with the number of its line."""
    for number, line in enumerate(text.split("\n"), 1):
        line = line.removesuffix("\r")
        if line and not line.startswith("#"):
            yield number, line


def dealt(requests, workers):
    """The round and the worker of each request, both counted from 0."""
    of_round, place, asked = 0, 0, 0
    for request in requests:
        if asked + texels(request) > MOST_OF_A_ROUND:
            of_round, place, asked = of_round + 1, 0, 0
        yield of_round, place % workers
        place, asked = place + 1, asked + texels(request)
        if request == "sync":
            of_round, place, asked = of_round + 1, 0, 0


def fractions(values):
    return ", ".join(f"{int(it) / 65535:.4f}" for it in values)


def answered(line):
    """What an answer means; a refusal is explained by `refusal`."""
    word, *rest = line.split(" ")
    if word in ("tex", "texd"):
        return f"generation {rest[0]}; as floats: {fractions(rest[1:])}"
    if word == "pixels":
        generation, channels, *values = rest
        more = " .." if len(values) > SHOWN else ""
        return (f"generation {generation}; {counted(len(values) // int(channels), 'texel')} of "
                f"{counted(channels, 'channel')}; as floats: {fractions(values[:SHOWN])}{more}")
    if word == "info":
        generation, width, height, channels, depth, stored, levels = rest
        return (f"generation {generation}; {width} by {height} texels, {counted(channels, 'channel')} of {depth} bits, "
                f"{counted(levels, 'level')}, {stored} of them stored")
    if word == "held":
        generation, x, y, width, height = rest
        return f"generation {generation}; the cell is {width} by {height} texels from ({x}, {y}) on"
    if word == "stat":
        filled = []
        for number, (tiles, pins, loose, share) in enumerate(it.split(",") for it in rest):
            if tiles != "0":
                filled.append(f"shard {number}: {counted(tiles, 'tile')}, {counted(pins, 'pin')}, {loose} of {share} "
                              "bytes unpinned")
        return "; ".join([*filled, f"{len(rest) - len(filled)} of {len(rest)} shards are empty"])
    return {"dropped": "the oldest held tile is released",
            "invalidated": "the file was checked, and answers from older versions end here",
            "renewed": "the file will be read again", "sync": "the round ended here"}.get(word, "")


def explained(requests, lines):
    """The explanations, line by line."""
    closing = [it for it in lines if it.startswith("worker ")]
    workers = max(1, len(closing))
    for (number, request), (of_round, worker), line in zip(requests, dealt([it for _, it in requests], workers), lines):
        # without the closing lines it is not known how many workers there were
        yield f"line {number}, round {of_round + 1}{f', worker {worker}' * bool(closing)}: {request}"
        yield f"    {line}"
        found = refusal(line)
        if not found:
            yield f"    {answered(line)}"
            continue
        means, helps = found
        yield f"    Refused: {means}."
        if helps:
            yield f"    What helps: {helps.replace('{name}', shlex.quote(name_in(request)))}"
    for line in closing:
        _, worker, _, needs, _, hits, *apart = line.split(" ")
        yield (f"worker {worker} needed {counted(needs, 'cell')}; {hits} of them were among the two that it had needed "
               "last")
        if apart:
            yield f"    There was no memory for {apart[-1]} of them, and their texels were answered uncached."


def main():
    words = argparse.ArgumentParser(description=__doc__, formatter_class=argparse.RawDescriptionHelpFormatter)
    words.add_argument("list", type=Path, metavar="LIST")
    words.add_argument("answers", type=Path, metavar="ANSWERS")
    args = words.parse_args()
    try:
        asked, lines = (it.read_text(encoding="utf-8") for it in (args.list, args.answers))
    except (OSError, UnicodeDecodeError) as fault:
        sys.exit(f"explain.py: {fault}")
    if ending(lines.strip()):
        sys.exit(f"no request was answered: {lines.strip()}: {ending(lines.strip())}")
    print(*explained(list(requests_of(asked)), lines.splitlines()), sep="\n")


if __name__ == "__main__":
    main()
