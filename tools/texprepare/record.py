"""The line at the end of each texture that prepare.py made: what it was made of, and how. No reader of TIFF looks at
bytes behind the last tile. By the line a later run knows what is up to date, and which files it may replace."""
import json
import os
from collections import namedtuple

MARK = "texcache prepare"
MAX_BYTES = 8192

# The name of the image, its size and time, the side of the tiles, the bits (0 if the image kept its own) and which
# programs made it.
Record = namedtuple("Record", "source size time tile bits made_by")


def line_of(record):
    return ("\n" + json.dumps({MARK: 1, **record._asdict()}) + "\n").encode()


def read(path):
    """The record of a texture; None if prepare.py did not make the file."""
    with open(path, "rb") as file:
        file.seek(max(0, os.fstat(file.fileno()).st_size - MAX_BYTES))
        last = file.read().rstrip(b"\n").rpartition(b"\n")[2]
    if not last.startswith(b'{"' + MARK.encode()):
        return None
    try:
        found = json.loads(last)
        return Record(*(found[it] for it in Record._fields))
    except (ValueError, KeyError):
        return None
