#!/usr/bin/env python3
"""Checks docs/DEFINITIONS.md: it has one row for each file of definitions that the contracts of the
public calls reach, and no other row.

A public call is a function that a library of the repository exports, a method of an exported type or
trait, or a ghost member or field of one. The crates under the heading `Tests` of crates.txt are left
out. A definition in specs/ is reached if a clause of a public call names it, or if another reached
definition does. Laws and lemmas in specs/ have a proof instead of a meaning, so they are not followed.

A row is under the heading of its crate and has five cells: the file, its question, its source, the
public calls that carry it with the labels of their clauses, and the tests. The question is the one
that the file opens with; --write copies it. The script checks that each call and label exists and
reaches the file, and that each test and heading exists. It prints what is wrong, suggests a row if
one is missing, and then ends with status 1.
"""

import argparse
import re
import sys
from collections import namedtuple
from itertools import takewhile

from texcheck.sources import TOP, layers

CRATES = TOP / "crates"
PAGE = TOP / "docs" / "DEFINITIONS.md"
TESTS = "Tests"
# the scripts whose tables and checks a row may name
TABLES = ("check_examples", "examples", "check_lists", "lists", "file_rows", "list_rows", "many_lookups")

WORD = re.compile(r"[\w\-◌>=+*/<≤≡∷']+(?:\.[\w\-]+)*", re.UNICODE)
USE = re.compile(
    r"^\s*(?:pub |ghost )?use Rattle\.([\w.]+?)(?:\.\{([^}]*)\}| as (\w+))?;?\s*$", re.M
)
HEAD = re.compile(
    r"^(?P<indent> *)(?P<kind>abbrev pub|unfoldable pub|pub record|pub data|abbrev|unfoldable"
    r"|record|data|pub) (?P<name>[\w◌>=+*\-']+)(?= |$)"
)
MEANINGS = ("abbrev pub", "unfoldable pub", "pub record", "pub data", "abbrev", "unfoldable")

# A clause of a public call: its owner (a type, a trait, or none), its function (or none), its label,
# its text, what the names of its file stand for, its kind (requires, ensures, ghost) and its file.
Clause = namedtuple("Clause", "crate owner function label text names kind file")


def libraries():
    """The libraries of the repository, in the order of crates.txt, without those for tests."""
    return [name for heading, crates in layers() if not heading.endswith(TESTS)
            for name in crates if (CRATES / name / "src" / "lib.rt").is_file()]


def imports(text):
    """What the names of a file stand for: crate, module and name, or none for a whole module."""
    found = {}
    for path, names, other in USE.findall(text):
        parts = path.split(".")
        if "specs" not in parts[1:2] or "declared" in parts:
            continue
        crate, module = parts[0], ".".join(parts[2:])
        if names:
            for word in names.replace("\n", " ").split(","):
                word = word.split()
                if word:
                    found[word[-1]] = (crate, module, word[0])
        else:
            found[other or parts[-1]] = (crate, module, None)
    return found


class Spec:
    """A file of specs/: its definitions, and what the words of each stand for."""

    def __init__(self, crate, file):
        self.crate, self.module = crate, file.stem
        text = file.read_text(encoding="utf-8")
        self.imports, self.question = imports(text), self.opening(text)
        self.bodies, self.kinds, self.says = {}, {}, {}
        comment, name = [], None
        for line in text.splitlines():
            bare = line.strip()
            if bare.startswith("--"):
                comment.append(bare[2:].strip())
                continue
            head = HEAD.match(line)
            # a field of a record, a constructor of a type
            inner = head and head["indent"] and head["kind"] == "pub"
            if head and not inner:
                name = head["name"]
                self.kinds[name] = head["kind"]
                self.says[name] = " ".join(comment) or "(no line of its own)"
                self.bodies[name] = ""
            if bare and not bare.startswith(("use ", "pub use ", "module ")):
                if name:
                    self.bodies[name] += line + "\n"
                comment = []
            if not bare:
                comment = []

    @staticmethod
    def opening(text):
        """The question that a file opens with."""
        lines = takewhile(lambda it: it.startswith("--"), text.splitlines())
        return " ".join(it[2:].strip() for it in lines).partition("?")[0] + "?"

    def is_meaning(self, name):
        return self.kinds.get(name) in MEANINGS


def reached_by(text, names, spec_of, own=None):
    """The definitions that a text names."""
    for word in WORD.findall(text):
        first, _, rest = word.partition(".")
        if own and first in own.bodies:
            yield own.crate, own.module, first
        elif first in names:
            crate, module, name = names[first]
            if name is None:
                name = rest.split(".")[0]
            if (crate, module) in spec_of:
                yield crate, module, name


def handed_out(lib):
    """The names that a library's root hands out."""
    found = set()
    for path in re.findall(r"^pub use ([^;]+);", lib, re.M):
        path = path.replace("\n", " ")
        braces = re.search(r"\{([^}]*)\}", path)
        for word in (braces[1] if braces else path.split("::")[-1]).split(","):
            if word.split():
                found.add(word.split()[-1])
    return found


def braced(text, start):
    """The text in the braces that open at or behind a place, and the place behind them."""
    at = text.find("{", start)
    depth = 0
    for place in range(at, len(text)):
        depth += {"{": 1, "}": -1}.get(text[place], 0)
        if not depth:
            return text[at + 1 : place], place + 1
    return text[at + 1 :], len(text)


CLAUSE = re.compile(r"\b(requires|ensures)\*?(?:\s+(\w+))?\s*(?=\{)")
GHOST = re.compile(r"\bghost\s+(?!use)(\w+)\s*[:=]\s*(?=\{)")
FUNCTION = re.compile(r"^(?P<indent> *)(?P<pub>pub )?(?:const |unsafe )*fn (?P<name>\w+)", re.M)
BLOCK = re.compile(
    r"^(?P<pub>pub )?(?P<kind>impl|trait|struct|enum)\b(?P<head>[^{;]*)", re.M
)


def contract(text, place):
    """The clauses of the function whose signature goes on at a place: label, text and kind."""
    depth = 0
    while place < len(text):
        clause = CLAUSE.match(text, place)
        if clause and not depth:
            body, place = braced(text, clause.end())
            yield clause[2] or "", body, clause[1]
            continue
        letter = text[place]
        if letter in "{;" and not depth:
            return
        depth += {"(": 1, "[": 1, ")": -1, "]": -1}.get(letter, 0)
        place += 1


def functions(text, owner, is_wanted):
    """Owner, function, label, text and kind of each clause of the functions of a text."""
    for found in FUNCTION.finditer(text):
        if is_wanted(found):
            for label, body, kind in contract(text, found.end()):
                yield owner, found["name"], label, body, kind


def ghosts(text, owner):
    for found in GHOST.finditer(text):
        yield owner, "", found[1], braced(text, found.end())[0], "ghost"


def handed_out_in(src, names):
    """The clauses of what a source file hands out."""
    code = "\n".join("" if line.strip().startswith("//") else line for line in src.splitlines())
    blocks = []
    for found in BLOCK.finditer(code):
        brace, semi = code.find("{", found.end()), code.find(";", found.end())
        if brace < 0 or (0 <= semi < brace):
            continue
        body, end = braced(code, brace)
        blocks.append((found.start(), end))
        words = re.sub(r"<[^<>]*>", "", re.sub(r"<[^<>]*>", "", found["head"]))
        words = words.split(" where ")[0]
        of_trait = found["kind"] == "impl" and " for " in words
        owner = re.findall(r"[A-Za-z_]\w*", words.split(" for ")[-1])[:1]
        if not owner or owner[0] not in names:
            continue
        if found["kind"] in ("impl", "trait"):
            every = of_trait or found["kind"] == "trait"
            yield from functions(body, owner[0], lambda it: every or it["pub"])
        yield from ghosts(body, owner[0])
    rest, last = "", 0
    for start, end in sorted(blocks):
        rest += code[last:start]
        last = max(last, end)
    rest += code[last:]
    yield from functions(
        rest, "", lambda it: it["pub"] and not it["indent"] and it["name"] in names
    )


def public_clauses():
    """Each clause that a library of the repository hands out."""
    for crate in libraries():
        src = CRATES / crate / "src"
        names = handed_out((src / "lib.rt").read_text(encoding="utf-8"))
        for file in sorted(src.rglob("*.rt")):
            text = file.read_text(encoding="utf-8")
            known = imports(text)
            for owner, function, label, body, kind in handed_out_in(text, names):
                yield Clause(crate, owner, function, label, body, known, kind, file.name)


def specs():
    """The files of definitions of the libraries, by crate and name, in their order."""
    return {
        (crate, file.stem): Spec(crate, file)
        for crate in libraries()
        for file in sorted((CRATES / crate / "specs").rglob("*.antt"))
        if file.stem != "Lib"
    }


class Reach:
    """Which definitions a text reaches, also by way of others."""

    def __init__(self, spec_of):
        self.spec_of, self.next_to = spec_of, {}

    def is_meaning(self, it):
        return self.spec_of[it[:2]].is_meaning(it[2])

    def beside(self, it):
        """The definitions that a definition names."""
        if it not in self.next_to:
            spec = self.spec_of[it[:2]]
            named = reached_by(spec.bodies[it[2]], spec.imports, self.spec_of, spec)
            self.next_to[it] = {other for other in named if self.is_meaning(other)}
        return self.next_to[it]

    def of(self, clause):
        """The definitions that a clause reaches."""
        named = reached_by(clause.text, clause.names, self.spec_of)
        wanted = [it for it in named if self.is_meaning(it)]
        found = set(wanted)
        while wanted:
            more = self.beside(wanted.pop()) - found
            found |= more
            wanted += more
        return found


def tests():
    """The names of the test functions of the repository, and of the tables and checks of the scripts that run it."""
    found = set()
    for file in CRATES.glob("*/src/**/*.rt"):
        text = file.read_text(encoding="utf-8")
        found.update(re.findall(r"#\[test\]\s*(?:#\[[^\]]*\]\s*)*(?:pub )?fn (\w+)", text))
    for script in TABLES:
        for file in (TOP / "tools").rglob(f"{script}.py"):
            found.update(re.findall(r"^(?:def )?(\w+)(?:\(| = )", file.read_text(encoding="utf-8"), re.M))
    return found


def call_of(clause):
    """A call as a row names it."""
    return "::".join(it for it in (clause.owner, clause.function) if it)


def rows():
    """The rows of the page: crate, file and the other cells, with the number of the line."""
    crate, known = None, set(libraries())
    for place, line in enumerate(PAGE.read_text(encoding="utf-8").splitlines(), 1):
        heading = re.match(r"#+\s+\W*(\w+)", line)
        if heading:
            crate = heading[1] if heading[1] in known else None
        elif crate and line.startswith("| `"):
            cells = [it.strip() for it in re.split(r"(?<!\\)\|", line.strip().strip("|"))]
            yield place, crate, cells[0].strip("`"), cells[1:]


CARRIED = re.compile(r"`([\w:]+)`(?:\s*\(([^)]*)\))?")
DOCUMENT = re.compile(r"(FORMAT|FILTERING|CACHE|REQUESTS)(?: (.+))?")


def has_heading(source):
    """A source that names a document of docs/ names a heading of it, or none."""
    named = DOCUMENT.fullmatch(source)
    if not named or not named[2]:
        return True
    page = TOP / "docs" / f"{named[1]}.md"
    return f"## {named[2]}" in page.read_text(encoding="utf-8").splitlines()


def written(spec_of):
    """The page, with the question of each file."""
    lines = PAGE.read_text(encoding="utf-8").splitlines(keepends=True)
    for place, crate, file, (question, *_) in rows():
        if (crate, file) in spec_of:
            lines[place - 1] = lines[place - 1].replace(f"| {question} |", f"| {spec_of[crate, file].question} |", 1)
    return "".join(lines)


def faults_of_row(key, cells, clauses, test_names):
    """What is wrong with the cells of a row."""
    if len(cells) != 4:
        yield f"has {len(cells) + 1} cells, and not 5"
        return
    question, source, carried, tested = cells
    if not question or not source or not tested:
        yield "has an empty cell"
    if not has_heading(source):
        yield f"names {source}, which is not a heading"
    calls = CARRIED.findall(carried)
    if not calls:
        yield "names no call that carries it"
    for call, labels in calls:
        there = [it for it in clauses if call in (call_of(it[0]), it[0].function, it[0].owner)]
        if not there:
            yield f"names the call {call}, which no library exports"
        for label in [it.strip() for it in labels.split(",")] if labels else [None]:
            of_label = [it for it in there if label in (None, it[0].label)]
            if there and not of_label:
                yield f"names the clause {label} of {call}, which has none of this label"
            elif there and not any(key in files for _, files in of_label):
                yield f"names {call} {label or ''}, from where no definition of the file is reached"
    for name in re.findall(r"`(\w+)`", tested):
        if name not in test_names:
            yield f"names the test {name}, which does not exist"


def row_to_begin_from(key, spec, clauses):
    """A row for a file, with a call that reaches it, of its own crate where there is one."""
    reaching = [it for it, files in clauses if key in files]
    reaching.sort(key=lambda it: it.crate != key[0])
    call = f"`{call_of(reaching[0])}` ({reaching[0].label})"
    return f"| `{key[1]}` | {spec.question} | own | {call} | none |"


def check(spec_of, wanted, clauses):
    status, seen, test_names = 0, set(), tests()
    files = {it[:2] for it in wanted}
    for place, crate, file, cells in rows():
        key = crate, file
        faults = list(faults_of_row(key, cells, clauses, test_names)) if key in files else []
        if key in spec_of and cells[0] != spec_of[key].question:
            faults.append("has another question than the file opens with; --write copies it")
        if key in seen:
            faults.append("has a second row")
        if key not in files:
            faults.append("is reached by no public call, or does not exist")
        seen.add(key)
        for it in faults:
            print(f"docs/DEFINITIONS.md:{place}: {crate}/specs/{file}.antt {it}")
            status = 1
    for key in [it for it in spec_of if it in files and it not in seen]:
        print(f"docs/DEFINITIONS.md: under the heading {key[0]} this row is missing:")
        print(row_to_begin_from(key, spec_of[key], clauses))
        status = 1
    if not status:
        print(f"docs/DEFINITIONS.md has a row for each of the {len(files)} files whose definitions")
        print(f"the public calls reach, {len(wanted)} definitions in all")
    return status


def print_list(spec_of, wanted):
    """Each definition that is reached: crate, file, name, its sentence."""
    for key, spec in spec_of.items():
        for name in spec.bodies:
            if (*key, name) in wanted:
                print(*key, name, spec.says[name], sep="\t")


def print_reaching(spec_of, clauses):
    """For each file of definitions the public calls that reach it, with their labels."""
    for key in spec_of:
        for clause, files in clauses:
            if key in files:
                print(*key, f"{clause.crate}: {call_of(clause)}", clause.label, sep="\t")


def print_calls(crate):
    """Each public call of a crate with its clauses."""
    known = libraries()
    if crate not in known:
        sys.exit(f"check_definitions: {crate} is not a library of crates.txt; those are {', '.join(known)}")
    last = None
    for clause in public_clauses():
        if clause.crate != crate:
            continue
        if (call_of(clause), clause.file) != last:
            last = call_of(clause), clause.file
            print(f"{last[0]}    src/{last[1]}")
        print(f"    {clause.kind} {clause.label}: {' '.join(clause.text.split())}".replace(" :", ":"))


def main():
    parser = argparse.ArgumentParser(description=__doc__.split("\n\n")[0],
                                     epilog="Without options it checks the page, and changes nothing.")
    choice = parser.add_mutually_exclusive_group()
    choice.add_argument("--write", action="store_true", help="copy the question of each file into its row, and check")
    choice.add_argument("--list", action="store_true", help="print each definition that is reached, with its sentence")
    choice.add_argument("--calls", nargs="?", const="", metavar="CRATE",
                        help="print each public call of CRATE with its clauses; without CRATE, print for each file of "
                             "definitions the calls that reach it")
    asked = parser.parse_args()
    if asked.calls:
        print_calls(asked.calls)
        return 0
    spec_of = specs()
    if asked.write:
        PAGE.write_text(written(spec_of), encoding="utf-8")
    reach = Reach(spec_of)
    clauses, wanted = [], set()
    for clause in public_clauses():
        found = reach.of(clause)
        wanted |= found
        clauses.append((clause, {it[:2] for it in found}))
    if asked.list:
        print_list(spec_of, wanted)
    elif asked.calls is not None:
        print_reaching(spec_of, clauses)
    else:
        return check(spec_of, wanted, clauses)
    return 0


if __name__ == "__main__":
    sys.exit(main())
