"""Makes the man pages: texcache(1) and texmake(1) of what --help prints, and texcache(3) of include/texcache.h."""
from pathlib import Path

from texcheck import header

# what each page is about
SUBJECTS = {"texcache.1": "answers requests for texels of a folder of TIFF files",
            "texmake.1": "writes an image as a texture with all its levels",
            "texcache.3": "a texture cache for renderers, over a folder of TIFF files"}
SEE_ALSO = "More is in PREFIX/share/doc/texcache; docs/ in these texts is a folder there."


def escaped(line):
    """A line as troff prints it unchanged."""
    line = line.replace("\\", "\\e").replace("-", "\\-")
    return f"\\&{line}" if line[:1] in (".", "'") else line


def as_is(lines):
    """Lines that keep their breaks and spaces."""
    return [".nf", *(escaped(it) or ".sp" for it in lines), ".fi"]


def head(page, version):
    name, section = page.split(".")
    return [f'.TH {name.upper()} {section} "" "texcache {version}"', ".SH NAME", f"{name} \\- {SUBJECTS[page]}"]


def of_program(page, version):
    """The page of a program: its --help."""
    usage, *rest = Path(__file__).with_name(f"{page[:-2]}.txt").read_text(encoding="ascii").strip().splitlines()
    return [*head(page, version), ".SH SYNOPSIS", escaped(usage.removeprefix("usage: ")),
            ".SH DESCRIPTION", *as_is(rest[1:]), ".SH SEE ALSO", "texcache(1), texmake(1), texcache(3).", SEE_ALSO]


def of_library(page, version):
    """The page of the library: the header's overview, calls and errors."""
    calls = [line for it in header.own_calls() for line in (".TP", f".B {escaped(it.declaration)}", escaped(it.comment))]
    errors = [line for name, number, comment in header.errors()
              for line in (".TP", f".B {name} ({number})", escaped(comment))]
    build = "cc program.c $(pkg-config --cflags --libs texcache)"
    return [*head(page, version), ".SH SYNOPSIS", *as_is(["#include <texcache.h>", "", build]),
            ".SH DESCRIPTION", *as_is(header.overview()[2:]), ".SH CALLS", *calls, ".SH ERRORS", *errors,
            ".SH SEE ALSO", "texcache(1), texmake(1).", SEE_ALSO]


def manuals(version):
    """The pages, each with its name."""
    for page in SUBJECTS:
        lines = of_library(page, version) if page.endswith(".3") else of_program(page, version)
        yield page, "\n".join(it for it in lines if it) + "\n"
