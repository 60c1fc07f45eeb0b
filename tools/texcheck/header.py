"""Reads include/texcache.h and include/texcache_supply.h: their calls, structs and named values, for the man page and
the list of the interface."""
import re
from collections import namedtuple

from texcheck.common import TOP

HEADER = TOP / "include" / "texcache.h"
SUPPLY = TOP / "include" / "texcache_supply.h"
# a call with its result and parameters, and the comment above it, if there is one
Call = namedtuple("Call", "declaration name comment")
COMMENT = r"(?:/\*(?P<comment>(?:(?!\*/).)*)\*/\n)?"
# a call may have another symbol, which follows it
DECLARED = re.compile(COMMENT + r"^(?P<declaration>\w[^{};()#]*?(?P<name>(?:texcache|tex_c)_\w+)\([^{};()]*\))"
                      r"(?:\s+TEXCACHE_SYMBOL\([^()]*\))?;", re.S | re.M)
STRUCT = re.compile(r"typedef struct (?P<name>texcache_\w+) \{(?P<fields>[^{}]*)\} (?P=name);")
ENUM = re.compile(r"enum (texcache_\w+) \{([^{}]*)\};")


def without_comments(text):
    return re.sub(r"/\*.*?\*/", " ", text, flags=re.S)


def on_one_line(text):
    return " ".join(text.split())


def calls(path):
    """The calls that a header declares. A comment loses the stars at its left."""
    for it in DECLARED.finditer(path.read_text(encoding="utf-8")):
        comment = re.sub(r"^ *\*", "", it["comment"] or "", flags=re.M)
        yield Call(on_one_line(it["declaration"]), it["name"], on_one_line(comment))


def own_calls():
    """The calls for programs."""
    return list(calls(HEADER))


def lower_calls():
    """The calls of the proved library."""
    return list(calls(SUPPLY))


def structs():
    """The public structs, each with the names of its fields."""
    text = HEADER.read_text(encoding="utf-8") + SUPPLY.read_text(encoding="utf-8")
    for it in STRUCT.finditer(without_comments(text)):
        fields = [re.findall(r"\w+", name)[-1] for line in it["fields"].split(";") for name in line.split(",")
                  if name.strip()]
        yield it["name"], fields


def values():
    """The names of the values of all enums."""
    for _, body in ENUM.findall(without_comments(HEADER.read_text(encoding="utf-8"))):
        yield from re.findall(r"TEXCACHE_\w+", body)


def errors():
    """The errors: their names, numbers and comments."""
    body = re.search(r"enum texcache_status \{(.*?)\};", HEADER.read_text(encoding="utf-8"), re.S)[1]
    for name, number, comment in re.findall(r"(TEXCACHE_\w+) = (\d+),?(?: +/\* (.*?) \*/)?", body):
        yield name, number, comment


def overview():
    """The comment at the top of the header, line by line."""
    text = HEADER.read_text(encoding="utf-8")
    comment = text[text.index("/*") + 2:text.index("*/")]
    return [re.sub(r"^ \* ?", "", it).rstrip() for it in comment.strip().splitlines()]
