"""Compares src/c/texcache_faults.h, the words for the faults of files in the C library, with the table in meanings.py.

The header is made of that table, so explain.py and texcache_last_error say the same. --write writes it anew.
"""
import json

from texcheck.archive import SOURCES
from texcheck.meanings import FAULTS, FIELDS

HELP = "the C library's words for the faults of files, against the table of explain.py"
HEADER = SOURCES / "texcache_faults.h"
HEAD = """/* texcache_faults.h: the words for the faults of files. tools/check fault-words --write made it of the table in
 * tools/texcheck/meanings.py; change that. */
#ifndef TEXCACHE_FAULTS_H
#define TEXCACHE_FAULTS_H

/* The names of the fields of a TIFF that the library reads. */
static const texc_field texc_fields[] = {
"""
MIDDLE = """};

/* Each fault: its number, its field and value (0 for any), what it means and what helps. The first one that fits
 * counts. In braces are what texc_put_words puts there: the field, the value, the part and the file's name. */
static const texc_words texc_faults[] = {
"""
TAIL = "};\n\n#endif\n"


def quoted(text):
    """A text as C writes it; JSON does so too, for ASCII."""
    return json.dumps(text)


def made():
    """The header, as the table says."""
    fields = (f"    {{{tag}, {quoted(name)}}},\n" for tag, name in FIELDS.items())
    faults = (f"    {{{code}, {part or 0}, {value or 0}, {quoted(means)},\n     {quoted(helps)}}},\n"
              for code, part, value, means, helps in FAULTS)
    return HEAD + "".join(fields) + MIDDLE + "".join(faults) + TAIL


def add_arguments(parser):
    parser.add_argument("--write", action="store_true", help="write the header anew")


def run(args):
    if args.write:
        HEADER.write_text(made(), encoding="ascii")
    is_so = HEADER.is_file() and HEADER.read_text(encoding="ascii") == made()
    print(f"fault-words: {HEADER.name} {'is as the table says' if is_so else 'is out of date; --write writes it'}")
    return 0 if is_so else 1
