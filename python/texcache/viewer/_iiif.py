"""The IIIF Image API 3.0, level 0: what info.json says, and which regions and sizes may be asked for.

Tiles are 256 by 256 texels, at scale factors that are powers of two: factor 2**m is level m. The whole image is there in
the sizes that info.json lists, and as `max`, which has at most 1024 texels to a side.
"""
from __future__ import annotations

import re
from typing import Any, Dict, List, NamedTuple, Tuple

from .. import Info
from ._folder import Absent

SIDE = 256
LARGEST = 1024
TYPE = 'application/ld+json;profile="http://iiif.io/api/image/3/context.json"'
NUMBERS = re.compile(r"(\d{1,10}),(\d{1,10}),(\d{1,10}),(\d{1,10})\Z")
SIZE = re.compile(r"(\d{1,10}),(\d{1,10})\Z")


class Region(NamedTuple):
    """A region of level 0, and the size in which it is answered, in the texels of a level."""
    x: int
    y: int
    w: int
    h: int
    columns: int
    rows: int
    level: int


def up(number: int, factor: int) -> int:
    """The quotient, rounded up."""
    return -(-number // factor)


def most(info: Info) -> Tuple[int, int]:
    """The size of `max`."""
    longer = max(info.width, info.height)
    if longer <= LARGEST:
        return info.width, info.height
    return max(1, info.width * LARGEST // longer), max(1, info.height * LARGEST // longer)


def sizes(info: Info) -> List[Tuple[int, int]]:
    """The sizes of the whole image, the smallest first."""
    found = {(up(info.width, 1 << it), up(info.height, 1 << it)) for it in range(info.levels)}
    return sorted({it for it in found if max(it) <= LARGEST} | {most(info)})


def facts(info: Info, address: str) -> Dict[str, Any]:
    """info.json."""
    return {"@context": "http://iiif.io/api/image/3/context.json", "id": address, "type": "ImageService3",
            "protocol": "http://iiif.io/api/image", "profile": "level0", "width": info.width, "height": info.height,
            "maxWidth": LARGEST, "maxHeight": LARGEST,
            "sizes": [{"width": w, "height": h} for w, h in sizes(info)],
            "tiles": [{"width": SIDE, "height": SIDE, "scaleFactors": [1 << it for it in range(info.levels)]}],
            "extraFormats": ["png"]}


def whole(info: Info, size: str) -> Tuple[int, int]:
    """The size in which the whole image is asked for."""
    found = SIZE.match(size)
    wanted = most(info) if size == "max" else tuple(map(int, found.groups())) if found else (0, 0)
    if wanted not in sizes(info):
        raise Absent(f"the whole image has no size {size[:40]}; info.json lists its sizes")
    return wanted  # type: ignore[return-value]


def tile(info: Info, region: str, size: str) -> Region:
    """A tile of info.json."""
    numbers, wanted = NUMBERS.match(region), SIZE.match(size)
    if not numbers or not wanted:
        raise Absent("level 0 has the region full, and tiles as x,y,w,h with the size w,h, as info.json lists them")
    x, y, w, h = map(int, numbers.groups())
    columns, rows = map(int, wanted.groups())
    for level in range(info.levels):
        factor = 1 << level
        full = SIDE * factor
        is_tile = x % full == 0 and y % full == 0 and x < info.width and y < info.height and (
            w, h, columns, rows) == (min(full, info.width - x), min(full, info.height - y),
                                     up(min(full, info.width - x), factor), up(min(full, info.height - y), factor))
        if is_tile:
            return Region(x, y, w, h, columns, rows, level)
    raise Absent("info.json lists no such tile")
