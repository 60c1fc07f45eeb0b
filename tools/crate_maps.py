#!/usr/bin/env python3
"""Makes the lists that follow from crates.txt and the crates' documents:

- crates/README.md: each crate under its layer, with the first sentence of its README;
- docs/DECISIONS.md: the title of each decision of each crate, above the decisions for all crates, which stay.

Without options it compares and changes nothing; with --write it writes. It also checks that each crate in crates.txt
comes after all that it uses. The status is 1 if something differs.
"""
import argparse
import re
import sys
import textwrap

from texcheck.sources import TOP, dependencies, layers

CRATES = TOP / "crates"
MAP = CRATES / "README.md"
DECISIONS = TOP / "docs" / "DECISIONS.md"
COLUMNS = 120

MAP_TOP = """# The crates

This page is made by `tools/crate_maps.py` from `crates.txt` and the first sentence of each crate's README. Each crate
comes after all that it uses. How they work together, where to start reading and where to change what:
[ARCHITECTURE](../docs/ARCHITECTURE.md).

![the layers of the crates, and who owns what](../docs/pictures/layers.svg)

A README shows the code first, then what the crate does, what it guarantees, what it needs, and what is only tested.
`python3 tools/check_definitions.py --calls CRATE` prints each public call with its clauses. Definitions (`specs/`) that
several crates use are in the lowest of them.
"""

MAP_END = """
## What may wait or start threads

The repository allows two handles of the runtime (`HANDLES`). waiter asks for `Wait`. render_run asks for `Wait` and
for `Threads`, for its workers, and so do sample_run, which calls it, and crates of tests. gen_board, shard_gate and
tile_slots make atomic steps, for which no handle is needed.
"""

DECISIONS_TOP = """# Decisions

Each entry says what was chosen and why, what was turned down, and what would undo it. What concerns one crate is in
its DECISIONS.md; this list of the titles is made by `tools/crate_maps.py`. What concerns all crates is
[below](#all-crates).
"""

ALL_CRATES = "## All crates\n"


def out_of_order():
    """The crates of crates.txt that come before one that they use."""
    uses, seen = dependencies(), set()
    for name, below in uses.items():
        for other in below:
            if other in uses and other not in seen:
                yield f"crates.txt: {name} comes before {other}, which it uses"
        seen.add(name)


def first_sentence(crate):
    """The first sentence of a crate's README, without its links."""
    lines = (CRATES / crate / "README.md").read_text(encoding="utf-8").split("\n\n")[1]
    text = re.sub(r"\[([^\]]+)\]\([^)]+\)", r"\1", " ".join(lines.split()))
    return re.match(r".*?\.(?=\s|$)", text)[0]


def item(text, indent=""):
    """An item of a list."""
    lines = textwrap.wrap(text, COLUMNS, initial_indent=f"{indent}- ", subsequent_indent=f"{indent}  ",
                          break_long_words=False, break_on_hyphens=False)
    return "\n".join(lines) + "\n"


def map_text():
    parts = [MAP_TOP]
    for title, crates in layers():
        parts.append(f"\n## {title}\n\n")
        tests = [it for it in crates if it.endswith("_tests")]
        for name in crates:
            if name not in tests:
                parts.append(item(f"[{name}]({name}/README.md): {first_sentence(name)}"))
        if tests:
            parts.append(item(f"[{', '.join(tests)}](TESTS.md): Tests with expected values from outside the code."))
    return "".join(parts) + MAP_END


def decisions_text():
    parts = [DECISIONS_TOP, "\n"]
    for _, crates in layers():
        for name in crates:
            file = CRATES / name / "DECISIONS.md"
            if file.is_file():
                parts.append(item(f"[{name}](../crates/{name}/DECISIONS.md)"))
                parts += [item(it, "  ") for it in re.findall(r"^## (.+)$", file.read_text(encoding="utf-8"), re.M)]
    own = DECISIONS.read_text(encoding="utf-8").partition(ALL_CRATES)[2]
    return "".join(parts) + "\n" + ALL_CRATES + own


def differences():
    """What is not as the script would write it."""
    yield from out_of_order()
    for file, text in ((MAP, map_text()), (DECISIONS, decisions_text())):
        if file.read_text(encoding="utf-8") != text:
            yield f"{file.relative_to(TOP)} is not what tools/crate_maps.py writes: run it with --write"


def main():
    parser = argparse.ArgumentParser(description=__doc__.split("\n\n")[0],
                                     epilog="Without --write it compares, and changes nothing.")
    parser.add_argument("--write", action="store_true", help="write crates/README.md and docs/DECISIONS.md")
    if parser.parse_args().write:
        MAP.write_text(map_text(), encoding="utf-8")
        DECISIONS.write_text(decisions_text(), encoding="utf-8")
    found = list(differences())
    print(*found or ["crates/README.md and docs/DECISIONS.md are as they should be"], sep="\n")
    return 1 if found else 0


if __name__ == "__main__":
    sys.exit(main())
