"""The structs, numbers and names of texcache.h, as ctypes has them.

A struct prints its fields. What comes from a caller goes through `whole`, `real` or `flag`, because ctypes cuts numbers
that do not fit without a word.
"""
from __future__ import annotations

import ctypes
import operator
from ctypes import POINTER, c_bool, c_char_p, c_double, c_float, c_int32, c_size_t, c_uint32, c_uint64, c_void_p
from enum import IntEnum
from functools import lru_cache
from typing import Any, Sequence


class Wrap(IntEnum):
    """What lies outside the image, for s or t."""
    BLACK = 0
    CLAMP = 1
    PERIODIC = 2
    MIRROR = 3


class Filter(IntEnum):
    """How a lookup without derivatives reads texels."""
    CLOSEST = 0
    BILINEAR = 1
    TRILINEAR = 2


# what values are, in C's numbers
UINT16, FLOAT, HALF = range(3)
OK, BAD_OPTIONS, BAD_REQUEST, SMALL_BUFFER, NOT_LOCAL, CLOSED = 0, 2, 4, 5, 7, 44


# ---- numbers from a caller

def whole(name: str, value: Any, low: int, high: int) -> int:
    """The whole number, if it is in this range."""
    try:
        number = operator.index(value)
    except TypeError:
        raise TypeError(f"{name} is {value!r}, and has to be a whole number") from None
    if not low <= number <= high:
        raise ValueError(f"{name} is {number}, and may be {low} to {high}")
    return number


def _fitting(name: str, value: Any, low: int, high: int) -> int:
    try:
        return whole(name, value, low, high)
    except ValueError:
        raise ValueError(f"{name} is {value}, and that is out of range") from None


def unsigned(name: str, value: Any) -> int:
    """A number that fits into 32 bits. The library knows narrower ranges, and says what it refuses."""
    return _fitting(name, value, 0, 2 ** 32 - 1)


def signed(name: str, value: Any) -> int:
    """A number that fits into 32 bits with a sign."""
    return _fitting(name, value, -2 ** 31, 2 ** 31 - 1)


def real(name: str, value: Any) -> float:
    """A number as a double."""
    if isinstance(value, (str, bytes)):
        raise TypeError(f"{name} is {value!r}, and has to be a number")
    try:
        return float(value)
    except OverflowError:
        raise ValueError(f"{name} is larger than a double can be") from None
    except (TypeError, ValueError):
        raise TypeError(f"{name} is {value!r}, and has to be a number") from None


def flag(name: str, value: Any) -> bool:
    """True or False, or 1 or 0."""
    if isinstance(value, (str, bytes)) or value not in (False, True):
        raise TypeError(f"{name} is {value!r}, and has to be True or False")
    return bool(value)


def file_number(file: Any) -> int:
    """The number of a file."""
    if isinstance(file, (str, bytes)):
        raise TypeError(f"file is {file!r}, and has to be a number: Cache.find gives that of a name")
    return unsigned("file", file)


# ---- structs

class Struct(ctypes.Structure):
    """A struct that prints its fields."""

    def __repr__(self) -> str:
        return f"{type(self).__name__}({', '.join(f'{n}={getattr(self, n)}' for n, *_ in self._fields_)})"


class Options(Struct):
    """The options of a cache: texcache_options."""
    _fields_ = [("size", c_size_t), ("budget", c_uint64), ("shards", c_uint32), ("passes", c_uint32), ("handles", c_uint32),
                ("autotile", c_uint32), ("slots", c_uint32), ("automip", c_bool), ("outside_paths", c_bool),
                ("refuse_links", c_bool), ("search_path", c_char_p), ("missing_ms", c_uint32),
                ("tiles_per_shard", c_uint32)]


class Answer(Struct):
    """What belongs to a result or an error: texcache_answer."""
    _fields_ = [("generation", c_uint32), ("newer", c_uint32), ("detail", c_uint32), ("part", c_uint32),
                ("value", c_uint64), ("channels", c_uint32)]
    generation: int
    newer: int
    detail: int
    part: int
    value: int
    channels: int


class TextureOptions(Struct):
    """How coordinates become values: texcache_texture_options."""
    _fields_ = [("size", c_size_t), ("swrap", c_uint32), ("twrap", c_uint32), ("channels", c_uint32),
                ("filter", c_uint32), ("lod", c_double), ("max_probes", c_uint32), ("first_channel", c_uint32),
                ("lod_bias", c_double), ("swidth", c_double), ("twidth", c_double), ("sblur", c_double),
                ("tblur", c_double), ("grey_to_rgb", c_uint32), ("fill", c_float), ("fill_alpha", c_float),
                ("missing_color", POINTER(c_float))]
    channels: int


class Coordinates(Struct):
    """Where many lookups are: texcache_coordinates."""
    _fields_ = [*((n, c_void_p) for n in ("s", "t", "dsdx", "dtdx", "dsdy", "dtdy")), ("step", c_size_t)]


class Results(Struct):
    """Where values go that are not 16-bit numbers: texcache_results."""
    _fields_ = [("size", c_size_t), ("type", c_uint32), ("room", c_size_t), ("values", c_void_p),
                ("dresultds", c_void_p), ("dresultdt", c_void_p)]


class Lookup(Struct):
    """A lookup in 1/65536 of the image: texcache_lookup."""
    _fields_ = [("s", c_int32), ("t", c_int32), ("lod", c_uint32), ("swrap", c_uint32), ("twrap", c_uint32),
                ("filter", c_uint32), ("channels", c_uint32), ("dsdx", c_int32), ("dtdx", c_int32),
                ("dsdy", c_int32), ("dtdy", c_int32)]
    channels: int


class Info(Struct):
    """What a file is: texcache_info. `depth` is the bits of a sample, 8 or 16. `stored` is how many levels the file has,
    and `levels` how many there are with the generated ones."""
    _fields_ = [(n, c_uint32) for n in ("width", "height", "channels", "depth", "stored", "levels")]
    width: int
    height: int
    channels: int
    depth: int
    stored: int
    levels: int


class Region(Struct):
    """A region of a level: texcache_region."""
    _fields_ = [("level", c_uint32), ("x", c_int32), ("y", c_int32), ("w", c_uint32), ("h", c_uint32)]


class Tile(Struct):
    """The rectangle of a held tile in its level, and its channels: texcache_tile."""
    _fields_ = [(n, c_uint32) for n in ("x", "y", "w", "h", "channels")]
    x: int
    y: int
    w: int
    h: int
    channels: int


class Counts(Struct):
    """What a pass has counted: texcache_counts."""
    _fields_ = [("needs", c_uint64), ("hits", c_uint64), ("apart", c_uint64), ("holds", c_uint64), ("shards", c_uint32)]
    needs: int
    hits: int
    apart: int
    holds: int
    shards: int


class Statistics(Struct):
    """The counts of a pass (`own`), and what all passes of the cache looked at, opened and read: texcache_statistics."""
    _fields_ = [("own", Counts), ("looks", c_uint64), ("opens", c_uint64), ("reads", c_uint64), ("bytes", c_uint64)]
    own: Counts
    looks: int
    opens: int
    reads: int
    bytes: int


class Shard(Struct):
    """Tiles, pins and bytes of a shard: texcache_shard."""
    _fields_ = [("tiles", c_uint32), ("pins", c_uint32), ("loose", c_uint64), ("share", c_uint64)]
    tiles: int
    pins: int
    loose: int
    share: int


# ---- options of lookups

# first_channel, fill, fill_alpha, grey_to_rgb, missing_color, lod_bias, width and blur of usual lookups
USUAL = (0, 0.0, None, False, None, 0.0, 1.0, 0.0)


def _pair(name: str, value: Any) -> Sequence[float]:
    """A number for s and t, or one for each."""
    try:
        s, t = value
    except TypeError:
        s = t = value
    except ValueError:
        raise ValueError(f"{name} is {value!r}, and has to be a number, or one for s and one for t") from None
    return real(name, s), real(name, t)


def _made_options(swrap: Any, twrap: Any, channels: Any, by: Any, lod: Any, max_probes: Any) -> TextureOptions:
    return TextureOptions(ctypes.sizeof(TextureOptions), unsigned("swrap", swrap), unsigned("twrap", twrap),
                          unsigned("channels", channels), unsigned("filter", by), real("lod", lod),
                          unsigned("max_probes", max_probes), swidth=1, twidth=1)


# most programs use few options, and making them takes longer than a lookup
_kept_options = lru_cache(maxsize=256, typed=True)(_made_options)


def _with_more(made: TextureOptions, first_channel: Any, fill: Any, fill_alpha: Any, grey_to_rgb: Any, missing_color: Any,
               lod_bias: Any, width: Any, blur: Any) -> TextureOptions:
    """The options with those that are seldom given."""
    made.first_channel = unsigned("first_channel", first_channel)
    made.fill = real("fill", fill)
    made.fill_alpha = made.fill if fill_alpha is None else real("fill_alpha", fill_alpha)
    made.grey_to_rgb = flag("grey_to_rgb", grey_to_rgb)
    made.lod_bias = real("lod_bias", lod_bias)
    made.swidth, made.twidth = _pair("width", width)
    made.sblur, made.tblur = _pair("blur", blur)
    if missing_color is not None:
        try:
            values = list(missing_color)
        except TypeError:
            raise TypeError(f"missing_color is {missing_color!r}, and has to be a value for each channel") from None
        color = [real("missing_color", it) for it in values]
        if len(color) < min(made.channels, 8):
            raise ValueError(f"missing_color has {len(color)} values for {made.channels} channels")
        # ctypes keeps the array as long as the struct
        made.missing_color = (c_float * max(8, len(color)))(*color)
    return made


def _is_usual(more: Sequence[Any]) -> bool:
    try:
        return more[4] is None and more == USUAL
    except ValueError:
        # arrays have no one answer
        return False


def texture_options(words: Sequence[Any], more: Sequence[Any]) -> TextureOptions:
    """The options of these numbers: swrap, twrap, channels, filter, lod, max_probes; and of `more`, in the order of USUAL.
    Nobody may change them."""
    if not _is_usual(more):
        return _with_more(_made_options(*words), *more)
    try:
        return _kept_options(*words)
    except TypeError:
        # what has no hash is no number either, and then this says which it is
        return _made_options(*words)
