"""Runs small lists over the files of texcache's stored run, one by one, and compares what the program prints, closing
lines included, and its status.

The expected output, in examples.json, was worked out by hand from docs/REQUESTS.md, docs/FILTERING.md and the formulas
of the images in stored_run.py.
"""
import json
import subprocess
import sys
from pathlib import Path

from texcheck.common import TOP, add_program, program_of

HELP = "small lists with what was worked out for them by hand"
FILES = TOP / "crates" / "texcache" / "data"
# the values of all texels of B.tif, which a line stands for by this name
ALL_OF_B = " ".join(str(20000 * c + 100 * y + x) for y in range(48) for x in range(80) for c in range(3))
TABLES = json.loads(Path(__file__).with_suffix(".json").read_text(encoding="ascii"))
# the arguments after the folder, the requests, their lines, those that close the run, and the status
EXAMPLES = [(it["arguments"], it["requests"], [line.replace("ALL_OF_B", ALL_OF_B) for line in it["lines"]],
             it["closing"], it["status"]) for it in TABLES["EXAMPLES"]]
# a file, the arguments, for how many channels, and lookups with the values of their first channels; the others are 0
LOOKUPS = [(it["file"], it["arguments"], it["channels"], it["lookups"]) for it in TABLES["LOOKUPS"]]


def examples_of(lookups):
    """A list for each file, and the answers without the closing lines."""
    for name, words, channels, rows in lookups:
        requests = [f"tex {fields} {many} {name}" for many in channels for fields, _ in rows]
        lines = [" ".join(map(str, ["tex", 1, *values, *[0] * (many - len(values))]))
                 for many in channels for _, values in rows]
        yield words, requests, lines, None, 0


def add_arguments(parser):
    add_program(parser, "texcache")


def run(args):
    program, wrong, examples = program_of(args, "texcache"), 0, [*EXAMPLES, *examples_of(LOOKUPS)]
    for words, requests, lines, closing, status in examples:
        ran = subprocess.run([program, FILES, *words], input="".join(it + "\n" for it in requests), text=True,
                             stdout=subprocess.PIPE, check=False)
        found = ran.stdout.splitlines()[:None if closing else len(lines)]
        if (found, ran.returncode) != (lines + (closing or []), status):
            wrong += 1
            print(f"{words} {requests}: status {ran.returncode}\n{ran.stdout}", file=sys.stderr)
    print(f"examples: {wrong} of {len(examples)} lists have other answers than expected")
    return 1 if wrong else 0
