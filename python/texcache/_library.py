"""Finds and loads libtexcache.so, and declares its calls.

Calls go through ctypes.CDLL, which releases the interpreter's lock (GIL) during each call. So other threads of Python run
while a call reads from a file or waits for another thread.
"""
from __future__ import annotations

import ctypes
import os
import re
from ctypes import POINTER, c_bool, c_char_p, c_double, c_float, c_int, c_size_t, c_uint16, c_uint32, c_void_p
from pathlib import Path
from typing import List

from ._structs import (Answer, Coordinates, Info, Lookup, Options, Region, Results, Shard, Statistics, TextureOptions,
                       Tile)
from ._version import VERSION

# the call that opens a cache, which has the version in its name
OPEN = "texcache_open_saying_" + re.sub(r"\W", "_", VERSION)
NAME = "libtexcache.so"
HELP = f"""the library of texcache was not found, or could not be loaded.
- Installed by ./install PREFIX: put PREFIX/lib/texcache/python on PYTHONPATH.
- Built in the repository by ./build tex_c, or in a minute by ./build --unproved tex_c: make a wheel of it in python/
  (docs/INSTALL.md), or link it as python/texcache/{NAME}.
- Anywhere else: set TEXCACHE_LIBRARY to the path of {NAME}.
"""


def _places() -> List[Path]:
    """Where the library may be, the first choice first."""
    given = os.environ.get("TEXCACHE_LIBRARY")
    here = Path(__file__).resolve().parent
    return [Path(given)] if given else [here / NAME, here.parent / NAME]


def _found() -> Path:
    for place in _places():
        if place.is_file():
            return place
    raise ImportError(f"{HELP}Looked for {' and '.join(map(str, _places()))}.")


def _declared(library: ctypes.CDLL) -> ctypes.CDLL:
    values, floats, answer = POINTER(c_uint16), POINTER(c_float), POINTER(Answer)
    lookup = [c_void_p, c_uint32, POINTER(Lookup), values, c_size_t, answer]
    fine = [c_void_p, c_uint32, POINTER(TextureOptions)]
    report = [c_void_p, c_uint32, c_char_p, c_size_t, POINTER(c_size_t)]
    calls = {
        OPEN: [POINTER(c_void_p), c_char_p, POINTER(Options), POINTER(c_uint32)],
        "texcache_close": [POINTER(c_void_p)], "texcache_end": [POINTER(c_void_p)],
        "texcache_new_pass": [c_void_p, POINTER(c_void_p)],
        "texcache_find": [c_void_p, c_char_p, POINTER(c_uint32)],
        "texcache_find_all": [c_void_p, c_char_p, POINTER(c_uint32)],
        "texcache_udim_file": [c_void_p, c_uint32, c_uint32, POINTER(c_uint32)],
        "texcache_udim_tiles": [c_void_p, c_uint32, POINTER(c_uint32), c_size_t, POINTER(c_size_t)],
        "texcache_get_info": [c_void_p, c_uint32, POINTER(Info), answer],
        "texcache_texture": [*fine, *[c_double] * 2, values, c_size_t, answer],
        "texcache_texture_footprint": [*fine, *[c_double] * 6, values, c_size_t, answer],
        "texcache_texture_float": [*fine, *[c_double] * 2, floats, c_size_t, answer],
        "texcache_texture_footprint_float": [*fine, *[c_double] * 6, floats, c_size_t, answer],
        "texcache_texture_many": [*fine, POINTER(Coordinates), c_size_t, c_void_p, c_size_t, POINTER(c_size_t), answer],
        "texcache_texture_results": [*fine, POINTER(Coordinates), c_size_t, POINTER(Results), POINTER(c_size_t), answer],
        "texcache_statistics_text": report, "texcache_statistics_json": report,
        "texcache_texture_fixed": lookup, "texcache_texture_d_fixed": lookup, "texcache_texture_local_fixed": lookup,
        "texcache_get_pixels": [c_void_p, c_uint32, POINTER(Region), c_void_p, c_size_t, answer],
        "texcache_get_tile": [c_void_p, c_uint32, c_uint32, c_uint32, c_uint32, answer],
        "texcache_tile_at": [c_void_p, c_size_t, POINTER(Tile)],
        "texcache_tile_texels": [c_void_p, c_size_t, c_void_p, c_size_t],
        "texcache_release_tile": [c_void_p, c_size_t], "texcache_invalidate": [c_void_p, c_uint32, c_bool, answer],
        "texcache_invalidate_all": [c_void_p, answer], "texcache_stats": [c_void_p, POINTER(Statistics)],
        "texcache_shard_stats": [c_void_p, c_uint32, POINTER(Shard)],
    }
    for name, given in calls.items():
        call = getattr(library, name)
        call.argtypes, call.restype = given, c_int
    others = {"texcache_error_string": ([c_int], c_char_p), "texcache_version": ([], c_char_p),
              "texcache_last_error": ([], c_char_p),
              "texcache_default_options": ([], Options), "texcache_file_count": ([c_void_p], c_uint32),
              "texcache_file_name": ([c_void_p, c_uint32], c_char_p), "texcache_is_udim": ([c_void_p, c_uint32], c_bool)}
    for name, (given, result) in others.items():
        call = getattr(library, name)
        call.argtypes, call.restype = given, result
    return library


def _loaded(place: Path) -> ctypes.CDLL:
    """The library, if it is of this package's version. (The structs and calls of another version may differ.)"""
    try:
        library = ctypes.CDLL(str(place))
    except OSError as error:
        raise ImportError(f"{HELP}{place}: {error}") from None
    try:
        library.texcache_version.restype = c_char_p
        found = library.texcache_version().decode()
    except AttributeError:
        found = "older than 1.0, or another library"
    if found.partition("+")[0] != VERSION:
        raise ImportError(f"the Python package texcache is of version {VERSION}, and the library {place} of version "
                          f"{found}: install both from one build")
    return _declared(library)


lib = _loaded(_found())
open_cache = getattr(lib, OPEN)


def version() -> str:
    """The version of the library, with +unproved behind it if nobody proved it."""
    return str(lib.texcache_version().decode())
