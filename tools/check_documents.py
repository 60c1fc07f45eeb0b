#!/usr/bin/env python3
"""Checks the documents of the repository.

- No line is longer than 120 columns, except in tables, which may have 160, or more if a script writes them; README.md
  has at most 120 lines of at most 100 columns.
- Each link leads to a file, and to a heading of it if it names one. So does each place that points to a heading by its
  title, in a document, a source or a script: `docs/FORMAT.md`, "Levels".
- Each crate of crates.txt has a README; each crate of tests is in crates/TESTS.md; crates/README.md and
  docs/DECISIONS.md are what tools/crate_maps.py makes, and docs/BENCHMARK.md shows bench/figures.json.
- README.md, CHANGELOG.md, include/texcache.h and python/texcache/_version.py name the version of the file VERSION.
- Each file in backticks exists; the end of its path is enough.
- Each clause that a crate's README names, as `read_dirs` (told), belongs to a public call.
- Plain English: no sentence has more than 35 words, nine of ten sentences of a document have at most 28, and none of
  the private phrases below is used. Tables, code, headings and references to clauses are left out.

It prints what is wrong, and then ends with status 1.
"""

import argparse
import os
import re
import subprocess
import sys
from pathlib import Path

import crate_maps
from check_definitions import CARRIED, CRATES, TOP, call_of, public_clauses
from texcheck.sources import dependencies

MAX_COLUMNS = 120
TABLE_COLUMNS = 160
README_COLUMNS = 100
README_LINES = 120
SOURCES = (".rt", ".antt", ".py", ".sh", ".c", ".cpp")

# a file in backticks, and not one of a command
FILE = re.compile(r"`([\w./-]+\.(?:rt|antt|md|py|sh|c|cpp))`")
LINK = re.compile(r"\]\(([^)\s]+)\)")
# `docs/FORMAT.md`, "Levels" and "Faults"
TITLES = re.compile(
    r"`?((?:docs|crates|demo)/[\w/]+\.md|[A-Z]+\.md)`?,\s+"
    r"(\"[^\"]+\"(?:\s*(?:,|and)\s+\"[^\"]+\")*)"
)


# Plain English: the longest sentence, and what nine of ten sentences of a document may have, in words.
MAX_WORDS, USUAL_WORDS = 35, 28

# Phrases that a stranger has to decode, and what to write.
PHRASES = [(re.compile(rf"\b(?:{pattern})", re.I), instead) for pattern, instead in (
    (r"want of memory|memory is wanting|refused growth", "out of memory; a failed allocation"),
    (r"does not tell\b|that tells\b|the world tells\b|tells its\b", "a modelled world; is not modelled"),
    (r"the program stands\b|what stands\b", "works; implemented"),
    (r"is none\b|there is none\b|none of ours", "has no ..; does not exist"),
    (r"so many\b", "N ..; the noun"),
    (r"exactly where\b", "if and only if"),
    (r"words of the command line", "arguments"),
    (r"(?:behind|costs|in|of) the gate\b", "CI; the full check"),
    (r"wrong bod(?:y|ies)\b", "must-fail edit; planted bug"),
    (r"what holds of\b|wanted anew", "say what is meant"),
    (r"the same, (?:of|for|in)\b", "name it"),
)]

# Where a phrase is right all the same: it is printed, or is a name.
ALLOWED = {
    ("CONTRIBUTING.md", "wrong body"): "the word of the file names, explained there",
    ("docs/GLOSSARY.md", "wrong body"): "the word of the file names, explained there",
    ("crates/shard_gate/README.md", "of the gate"): "the gate is the type Gate",
    ("crates/pinned_tiles/README.md", "of the gate"): "the gate is the type Gate",
}


def documents():
    for place in ("*.md", "docs/*.md", "demo/*.md", "examples/*/*.md", "crates/*.md", "crates/*/*.md"):
        yield from sorted(TOP.glob(place))


def sources():
    for place in ("crates", "tools", "demo", "docs", "bench"):
        for file in sorted((TOP / place).rglob("*")):
            if file.suffix in SOURCES:
                yield file


def headings(file):
    return re.findall(r"^#+ +(.*\S)", file.read_text(encoding="utf-8"), re.M)


def anchor(title):
    """The anchor that a heading has."""
    return re.sub(r"[^\w\- ]", "", title.lower()).replace(" ", "-")


def too_long(file, text):
    usual = README_COLUMNS if file == TOP / "README.md" else MAX_COLUMNS
    for number, line in enumerate(text.splitlines(), 1):
        if line.startswith("|") and file.name == "DEFINITIONS.md":
            continue
        most = TABLE_COLUMNS if line.startswith("|") else usual
        if len(line) > most:
            yield f"line {number} has {len(line)} columns, and may have {most}"
    if file == TOP / "README.md" and len(text.splitlines()) > README_LINES:
        yield f"it has {len(text.splitlines())} lines, and may have {README_LINES}"


def broken_links(file, text):
    for target in LINK.findall(text):
        if "://" in target:
            continue
        path, _, title = target.partition("#")
        there = (file.parent / path).resolve() if path else file
        if not there.exists():
            yield f"the link {target} leads to no file"
        elif title and title not in map(anchor, headings(there)):
            yield f"the link {target} leads to no heading"


def broken_titles(text):
    # a title may go on in the next line, in a comment too
    text = re.sub(r"\n\s*(?://[/!]?|--|#)?\s*", " ", text)
    for path, titles in TITLES.findall(text):
        file = TOP / path if "/" in path else TOP / "docs" / path
        file = file if file.exists() else TOP / path
        if not file.exists():
            yield f"it points to {path}, which does not exist"
            continue
        for title in re.findall(r"\"([^\"]+)\"", titles):
            if title not in headings(file):
                yield f"it points to {path}, \"{title}\", which is not a heading there"


def prose(text):
    """A document without code, tables, headings, pictures, and references to clauses; code in backticks is one word."""
    text = re.sub(r"^```.*?^```", "\n", text, flags=re.S | re.M)
    lines = ["" if it.startswith("    ") or it.lstrip().startswith(("|", "#", "!", "<!--")) else it
             for it in text.split("\n")]
    text = re.sub(r"\]\([^)]*\)", "]", "\n".join(lines))
    text = re.sub(r"`[^`]*`(?:\s*\([a-z_,\s]*\))?", "x", text)
    return re.sub(r"\bx(?:,\s+(?:and\s+)?x)+\b", "x", text)


def sentences(text):
    """The sentences of prose; items of lists are sentences of their own."""
    for piece in re.split(r"(?<=[.!?])\s+|\n\s*\n|\n\s*(?:[-*]|\d+\.) ", text):
        words = piece.split()
        if len(words) > 2:
            yield words


def is_allowed(file, found):
    return any(file == where and found.lower() in phrase for where, phrase in ALLOWED)


def not_plain(file, text):
    """Sentences that are too long, and private phrases."""
    text = prose(text)
    counts = []
    for words in sentences(text):
        counts.append(len(words))
        if len(words) > MAX_WORDS:
            yield f"a sentence has {len(words)} words, and may have {MAX_WORDS}: {' '.join(words[:10])} .."
    usual = sorted(counts)[len(counts) * 9 // 10] if counts else 0
    if usual > USUAL_WORDS:
        yield f"one sentence in ten has {usual} words or more; {USUAL_WORDS} are allowed"
    for pattern, instead in PHRASES:
        for found in pattern.findall(text):
            if not is_allowed(file, found):
                yield f"\"{found}\": write {instead}"


def other_figures():
    """Whether docs/BENCHMARK.md shows the figures that it should."""
    ran = subprocess.run([sys.executable, TOP / "bench" / "draw.py"], stdout=subprocess.PIPE, text=True, check=False)
    return ran.stdout.splitlines() if ran.returncode else []


def missing_files(text, ends):
    return (f"it names the file {it}, which does not exist" for it in FILE.findall(text) if it not in ends)


def ends_of_paths():
    """The path of each file of the repository, and each end of such a path."""
    for at, folders, files in os.walk(TOP):
        folders[:] = [it for it in folders if it not in ("out", ".git")]
        for name in files:
            parts = (Path(at) / name).relative_to(TOP).parts
            yield from ("/".join(parts[start:]) for start in range(len(parts)))



def other_versions():
    """What does not name the version."""
    version = (TOP / "VERSION").read_text(encoding="utf-8").strip()
    for path in ("README.md", "CHANGELOG.md", "include/texcache.h", "python/texcache/_version.py"):
        if version not in (TOP / path).read_text(encoding="utf-8"):
            yield f"{path} does not name the version {version}"


def missing_entries():
    """Crates that the pages about the crates do not mention, and missing READMEs."""
    crates = (CRATES / "README.md").read_text(encoding="utf-8")
    tests = (CRATES / "TESTS.md").read_text(encoding="utf-8")
    for name in dependencies():
        if name.endswith("_tests"):
            if name not in tests:
                yield f"crates/TESTS.md does not mention the crate {name}"
            continue
        if not (CRATES / name / "README.md").exists():
            yield f"crates/{name}/README.md does not exist"
        if f"{name}/README.md)" not in crates:
            yield f"crates/README.md has no link to {name}"


def unknown_clauses(text, clauses):
    for call, labels in CARRIED.findall(text):
        for label in [it.strip() for it in labels.split(",") if it.strip()]:
            if re.fullmatch(r"\w+", label) and (call, label) not in clauses:
                yield f"it names the clause {label} of {call}, which no library exports"


def main():
    argparse.ArgumentParser(description=__doc__, formatter_class=argparse.RawDescriptionHelpFormatter).parse_args()
    ends = set(ends_of_paths())
    clauses = {(name, it.label) for it in public_clauses() for name in (call_of(it), it.owner)}
    faults = [("", it) for it in (*missing_entries(), *other_versions(), *crate_maps.differences(), *other_figures())]
    for file in documents():
        text = file.read_text(encoding="utf-8")
        found = [*too_long(file, text), *broken_links(file, text), *broken_titles(text),
                 *missing_files(text, ends), *not_plain(str(file.relative_to(TOP)), text)]
        if file.parent.parent == CRATES:
            found += unknown_clauses(text, clauses)
        faults += [(file.relative_to(TOP), it) for it in found]
    for file in sources():
        text = file.read_text(encoding="utf-8")
        faults += [(file.relative_to(TOP), it) for it in broken_titles(text)]
    for file, it in faults:
        print(f"{file}: {it}" if file else it)
    if not faults:
        print("the documents: lines, links, headings, crates, clauses and sentences are as they should be")
    return 1 if faults else 0


if __name__ == "__main__":
    sys.exit(main())
