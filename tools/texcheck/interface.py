"""Compares what programs are compiled against with the list src/c/interface.txt.

The list has the calls of include/texcache.h and texcache_supply.h with their types, the sizes of the structs and the
places of their fields, the values of the enums, and what libtexcache.so.1 and libtexcache.a export. A change needs
another version: the symbols of the calls that open a cache have the version in them, and so no program links with the
structs of an older one. After VERSION was raised, --write writes the list anew. The headers must have that version.
docs/EMBEDDING.md must say how many lines of C are trusted, of each part, and which glibc the library needs.
"""
import difflib
import re
import shutil
import tempfile
from pathlib import Path

from texcheck import header
from texcheck.archive import archive_of
from texcheck.common import TOP, Missing, Skips, said
from texcheck.sources import version_text
from texcheck.tree import SHARED, SOURCES, shared

HELP = "calls, structs and symbols of the library, against the list src/c/interface.txt"
LIST = SOURCES / "interface.txt"
HEAD = """# What programs are compiled against. tools/check interface compares it with header and library, and writes it.
# A change needs another version in the file VERSION.
"""
# a table that a script makes
WORDS = "texcache_faults.h"
# what the toolchain's part of the archive defines, and what our C files share and the shared library hides
FOREIGN = re.compile(r"rattle_\w+|texc_\w+")


def types(call):
    """A call without the names of its parameters, which no program depends on."""
    before, parameters = call.declaration.removesuffix(")").split("(", 1)
    without = [re.sub(r"(?<=[\s*])\w+$", "", it.strip()).strip() or it.strip() for it in parameters.split(",")]
    return f"call {before}({', '.join(without)})"


def sized():
    """The sizes of the structs, the places of their fields and the values of the enums, as the compiler has them."""
    lines = []
    for name, fields in header.structs():
        places = "".join(f" {it} %zu" for it in fields)
        numbers = "".join(f", offsetof({name}, {it})" for it in fields)
        lines.append(f'printf("struct {name} %zu:{places}\\n", sizeof({name}){numbers});')
    lines += [f'printf("value {it} %d\\n", {it});' for it in header.values()]
    program = '#include "texcache_supply.h"\n#include <stdio.h>\nint main(void)\n{\n' + "\n".join(lines) + "\nreturn 0;\n}\n"
    with tempfile.TemporaryDirectory() as room:
        source, made = Path(room) / "sizes.c", Path(room) / "sizes"
        source.write_text(program, encoding="ascii")
        status, text = said(["cc", f"-I{TOP / 'include'}", "-o", made, source])
        if status:
            raise Missing(f"the sizes cannot be printed: {text[-2000:]}")
        return said([made])[1].splitlines()


def symbols(words):
    """The names that a library exports."""
    text = said(["nm", "--defined-only", "--extern-only", *words])[1]
    return sorted({it.split()[2] for it in text.splitlines() if len(it.split()) == 3})


def found(archive):
    """The interface, line by line."""
    with tempfile.TemporaryDirectory() as room:
        shared(archive, Path(room) / SHARED)
        exported = symbols(["-D", Path(room) / SHARED])
    return [f"version {version_text(True)}", *sorted(map(types, header.own_calls() + header.lower_calls())), *sized(),
            *(f"shared {it}" for it in exported),
            *(f"archive {it}" for it in symbols([archive]) if not FOREIGN.fullmatch(it))]


# the files of each line of the table in docs/EMBEDDING.md
RESULTS = (("texcache_posix.c",), ("texcache_passes.c",), ("texcache_lookups.c", "texcache_calls.c"),
           ("texcache_results.c",), ("texcache_paths.c",), ("texcache_udim.c",), ("texcache_inside.h", "version.c"))
# on these no result depends
REPORTS = (("texcache_errors.c", "texcache_statistics.c"),)


def trusted():
    """What docs/EMBEDDING.md has to say of the C part: how many lines it has, without comments and blank lines."""
    counts = {it.name: sum(bool(line.strip()) for line in
                           header.without_comments(it.read_text(encoding="utf-8")).splitlines())
              for it in sorted(SOURCES.glob("*.[ch]"))}
    words = counts.pop(WORDS)
    table = (*RESULTS, *REPORTS)
    total = lambda rows: sum(counts[it] for names in rows for it in names)
    lines = [f"| {', '.join(f'`{it}`' for it in names)} | {total([names])} |" for names in table]
    others = set(counts).difference(*table)
    return [f"It has {total(table)} lines of C", f"Results depend on {total(RESULTS)} of them",
            f"the other {total(REPORTS)} are for errors and statistics", f"{words} lines of words", *lines, *sorted(others)]


def least_glibc(archive):
    """The oldest glibc with which the shared library runs, as it is linked here."""
    with tempfile.TemporaryDirectory() as room:
        shared(archive, Path(room) / SHARED)
        found = re.findall(rb"GLIBC_(\d+)\.(\d+)", (Path(room) / SHARED).read_bytes())
    return "glibc {}.{} or later".format(*max((int(a), int(b)) for a, b in found))


def unsaid(archive):
    """What docs/EMBEDDING.md does not say of the library, or says wrongly."""
    page = " ".join((TOP / "docs" / "EMBEDDING.md").read_text(encoding="utf-8").split())
    return [f"docs/EMBEDDING.md does not say: {it}" for it in (*trusted(), least_glibc(archive)) if it not in page]


def listed():
    lines = LIST.read_text(encoding="ascii").splitlines() if LIST.is_file() else []
    return [it for it in lines if not it.startswith("#")]


def faults(now, before):
    """What is wrong with the list."""
    symbol = re.sub(r"\W", "_", version_text(True))
    if f'"_{symbol}"' not in header.HEADER.read_text(encoding="utf-8"):
        return [f"TEXCACHE_SYMBOL of include/texcache.h does not end in _{symbol}"]
    if now[0] != before[0]:
        return [f"the list has {before[0] or 'no version'}, and the file VERSION has {now[0]}: "
                "tools/check interface --write writes the list anew"]
    if now[1:] == before[1:]:
        return []
    changes = [it for it in difflib.ndiff(before[1:], now[1:]) if it.startswith(("+ ", "- "))]
    return ["the interface changed, and the version did not: raise it in the file VERSION, and then write the list by "
            "tools/check interface --write", *changes]


def add_arguments(parser):
    parser.add_argument("--library", type=Path, metavar="FILE",
                        help="the library; else the proved one if it is up to date, or an unproved build")
    parser.add_argument("--write", action="store_true", help="write the list anew, if its version is another one")
    Skips.add_argument(parser)


def run(args):
    skips = Skips(args)
    lacking = next((it for it in ("cc", "nm") if not shutil.which(it)), None)
    if skips.lacks(lacking, "interface"):
        return 1 if skips.failed else 0
    archive = archive_of(args.library)
    now, before = found(archive), listed()
    if args.write and now[:1] != before[:1]:
        LIST.write_text(HEAD + "\n".join(now) + "\n", encoding="ascii")
        before = now
    wrong = faults(now, before or [""]) + unsaid(archive)
    print(*wrong, f"interface: {len(now)} lines {'differ from the list' if wrong else 'are as the list says'}", sep="\n")
    return 1 if wrong else 0
