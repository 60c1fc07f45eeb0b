"""The sizes of images, and the bytes of the textures that texmake makes of them (docs/FORMAT.md, "Textures that are
made")."""
import mmap
import os
from collections import namedtuple

from texcheck.plain_reader import Directory, Fault, File, pages_of

# the most samples of level 0 that texmake reads
MAX_SAMPLES = 67108864

Facts = namedtuple("Facts", "width height channels depth")


def samples(facts):
    return facts.width * facts.height * facts.channels


def mapped(file):
    return mmap.mmap(file.fileno(), 0, access=mmap.ACCESS_READ) if os.fstat(file.fileno()).st_size else b""


def first_directory(path):
    """The first directory of a TIFF that the cache accepts, as far as this says; raises its fault."""
    with open(path, "rb") as file:
        opened = File(mapped(file))
        return Directory(opened, opened.first_directory())


def tiff_field(path, tag):
    return first_directory(path).one(tag)


def tiff_facts(path):
    """The facts of level 0."""
    first = first_directory(path)
    return Facts(first.one(256), first.one(257), first.one(277), first.one(258))


def file_fault(path):
    """The first fault of a file, as its numbers, or None."""
    with open(path, "rb") as file:
        try:
            pages_of(mapped(file))
        except Fault as found:
            return found.args
    return None


def is_tiff(path):
    with open(path, "rb") as file:
        return file.read(2) in (b"II", b"MM")


def texture_bytes(facts, side):
    """The bytes of the texture with tiles of this side. (An RGB picture is taken for one with extra channels as well;
    values that do not fit in an entry are counted as they are written.)"""
    width, height, channels, depth = facts
    total, is_last = 8, False
    while not is_last:
        tiles = -(-width // side) * -(-height // side)
        total += tiles * side * side * channels * depth // 8
        total += 2 + 12 * 13 + 4 + 2 * 4 * tiles * (tiles > 1) + 4 * channels
        is_last = (width, height) == (1, 1)
        width, height = max(1, width // 2), max(1, height // 2)
    return total


def size_text(count):
    for unit, size in (("GiB", 2 ** 30), ("MiB", 2 ** 20), ("KiB", 2 ** 10)):
        if count >= size:
            return f"{count / size:.1f} {unit}"
    return f"{count} bytes"


def facts_text(facts):
    channels = f"{facts.channels} channel{'s' * (facts.channels != 1)}"
    return f"{facts.width} by {facts.height}, {channels} of {facts.depth} bits"
