"""Caches and passes: the calls of texcache.h as methods."""
from __future__ import annotations

import json
import os
import threading
import weakref
from ctypes import byref, c_float, c_size_t, c_uint16, c_uint32, c_void_p, create_string_buffer, sizeof
from numbers import Real
from types import TracebackType
from typing import Any, Dict, List, Optional, Sequence, Type, Union

from ._arrays import Columns, Values
from ._library import lib, open_cache
from ._structs import (CLOSED, FLOAT, HALF, NOT_LOCAL, OK, SMALL_BUFFER, UINT16, Answer, Coordinates, Filter, Info,
                       Lookup, Region, Results, Shard, Statistics, TextureOptions, Tile, Wrap, file_number, flag, real,
                       signed, texture_options, unsigned, whole)

OPTIONS = ("budget", "shards", "passes", "handles", "autotile", "slots", "automip", "search_path", "outside_paths",
           "refuse_links", "missing_ms", "tiles_per_shard")
MOST_TEXELS = 1048576  # of a region
MOST_TILES = 8999  # of a UDIM set

# the calls for one lookup, with 16-bit values and with floats
ONE = lib.texcache_texture, lib.texcache_texture_float
OVER_ONE = lib.texcache_texture_footprint, lib.texcache_texture_footprint_float

# numbers of lookups: one number, a numpy array or what numpy makes one of; without numpy a list
Numbers = Any
# a list of channels for one lookup; an array, or without numpy a list of lists, for many
Found = Any


class Refused(Exception):
    """A failed call. Its text says what failed and what helps, with the file's name.

    status: the number of the error, as in enum texcache_status of texcache.h
    reason: the name of the error, in a few words
    answer: the details, an Answer
    values: of texture and texture_footprint for many places, the values of the first lookups, which are valid
    """

    def __init__(self, status: int, answer: Optional[Answer] = None, values: Found = None) -> None:
        self.status, self.answer, self.values = status, answer or Answer(), values
        self.reason = lib.texcache_error_string(status).decode()
        # the text of the calling thread's latest failed call, which is this one
        super().__init__(lib.texcache_last_error().decode(errors="replace") or self.reason)


class Closed(Refused):
    """A call of a closed cache, or of a pass that has ended."""

    def __init__(self, what: str) -> None:
        super().__init__(CLOSED)
        self.reason, self.args = what, (what,)


def _check(status: int, answer: Optional[Answer] = None) -> None:
    if status != OK:
        raise Refused(status, answer)


def _path(what: str, name: Union[str, bytes, "os.PathLike[Any]"]) -> bytes:
    """A name as C takes it."""
    try:
        found = os.fsencode(name)
    except TypeError:
        raise TypeError(f"{what} is {name!r}, and has to be a text or a path") from None
    if b"\0" in found:
        raise ValueError(f"{what} is {name!r}, and no name has a zero byte")
    return found


def _search_path(given: Any) -> Optional[bytes]:
    """Folders as C takes them, with colons between them."""
    if given is None or isinstance(given, (str, bytes)):
        return None if given is None else _path("search_path", given)
    folders = [given] if hasattr(given, "__fspath__") else list(given)
    found = [_path("search_path", it) for it in folders]
    for it in found:
        if b":" in it or b";" in it:
            raise ValueError(f"search_path has the folder {os.fsdecode(it)!r}, and a colon or semicolon divides folders")
    return b":".join(found)


def _ended(pass_: "Pass") -> None:
    """Ends a pass that nobody has any more. What fails here nobody could hear of."""
    if pass_._at:
        lib.texcache_end(byref(pass_._at))


class Cache:
    """A cache of the files of a folder and of a search path. A file is looked for when `find` asks for it.

    budget:   the bytes that tiles may take, 0 to 2**40
    shards:   1 to 64
    passes:   how many threads may use it, 1 to 1024; the cache keeps one for itself
    handles:  idle files that stay open, 1 to 1024
    autotile: the side of the cells of a stripped image: 0, or a multiple of 16 up to 4096
    slots:    rows kept when a tile finds no memory, 0 to 65536
    automip:  whether levels that a file does not have are generated
    search_path:   more folders: a list, or a text with colons between them
    outside_paths: whether files outside of these folders are found too
    refuse_links:  whether no file is found whose path has a symbolic link behind these folders
    missing_ms:    milliseconds for which a file that is gone is not looked for again; 0: always look
    tiles_per_shard: tiles that each shard can keep, 0 to 65536; at least 1024 and 7 for each pass

    What is not given has the library's default. A cache can be a context: `with texcache.Cache("textures") as cache`.
    Any thread may call it; each thread looks up through its own pass.
    """

    _at: Any = None

    def __init__(self, folder: Union[str, bytes, "os.PathLike[Any]"], *, budget: Optional[int] = None,
                 shards: Optional[int] = None, passes: Optional[int] = None, handles: Optional[int] = None,
                 autotile: Optional[int] = None, slots: Optional[int] = None, automip: Optional[bool] = None,
                 search_path: Union[None, str, bytes, "os.PathLike[Any]", Sequence[Any]] = None,
                 outside_paths: bool = False, refuse_links: bool = False, missing_ms: Optional[int] = None,
                 tiles_per_shard: Optional[int] = None) -> None:
        options = lib.texcache_default_options()
        if budget is not None:
            options.budget = whole("budget", budget, 0, 2 ** 64 - 1)
        for name, value in (("shards", shards), ("passes", passes), ("handles", handles), ("autotile", autotile),
                            ("slots", slots), ("missing_ms", missing_ms), ("tiles_per_shard", tiles_per_shard)):
            if value is not None:
                setattr(options, name, unsigned(name, value))
        if automip is not None:
            options.automip = flag("automip", automip)
        options.outside_paths = flag("outside_paths", outside_paths)
        options.refuse_links = flag("refuse_links", refuse_links)
        options.search_path = _search_path(search_path)
        self._folder, self._local, self._thread_passes = folder, threading.local(), weakref.WeakSet()  # type: ignore
        at, bad = c_void_p(), c_uint32()
        status = open_cache(byref(at), _path("folder", folder), byref(options), byref(bad))
        _check(status, Answer(detail=bad.value))
        self._at = at

    def __repr__(self) -> str:
        state = f"{lib.texcache_file_count(self._at)} files" if self._at else "closed"
        return f"<texcache.Cache of {os.fsdecode(self._folder)!r}, {state}>"

    def _open(self) -> Any:
        if not self._at:
            raise Closed("the cache is closed")
        return self._at

    def close(self) -> None:
        """Closes the cache, if it is open. All passes of new_pass must have ended; those of this_thread end here. No
        other thread may be in a call."""
        if self._at:
            for it in list(self._thread_passes):
                it.end()
            _check(lib.texcache_close(byref(self._at)))

    def __enter__(self) -> "Cache":
        self._open()
        return self

    def __exit__(self, kind: Optional[Type[BaseException]], error: Optional[BaseException],
                 trace: Optional[TracebackType]) -> None:
        self.close()

    def __del__(self) -> None:
        if self._at:
            for it in list(self._thread_passes):
                _ended(it)
            lib.texcache_close(byref(self._at))

    def __len__(self) -> int:
        """How many files have been found."""
        return int(lib.texcache_file_count(self._open()))

    def find(self, name: Union[str, bytes, "os.PathLike[Any]"]) -> int:
        """The number of the file that a name means: a path in the folder or on the search path. It is the same at each
        call, and for all names of the file, as ./wall.tif and sub/../wall.tif."""
        file = c_uint32()
        _check(lib.texcache_find(self._open(), _path("name", name), byref(file)))
        return file.value

    def find_all(self, folder: Union[str, bytes, "os.PathLike[Any]"] = ".") -> int:
        """Finds each plain file that a folder has now, in the order of the names, and gives how many there are."""
        count = c_uint32()
        _check(lib.texcache_find_all(self._open(), _path("folder", folder), byref(count)))
        return count.value

    def is_udim(self, file: int) -> bool:
        """Whether this is the number of a UDIM set. `find` gives one for a name as wall.<UDIM>.tif, and all lookups take
        it: each is made in the file of its tile, which has the number 1001 + u + 10 * v. u and v are the whole parts of s
        and t."""
        return bool(lib.texcache_is_udim(self._open(), file_number(file)))

    def udim_tiles(self, file: int) -> List[int]:
        """The numbers of the tiles of a UDIM set, in their order."""
        count, tiles = c_size_t(), (c_uint32 * MOST_TILES)()
        _check(lib.texcache_udim_tiles(self._open(), file_number(file), tiles, MOST_TILES, byref(count)))
        return tiles[:count.value]

    def udim_file(self, file: int, tile: int) -> int:
        """The number of the file of a tile of a UDIM set, for calls that are no lookups."""
        found = c_uint32()
        _check(lib.texcache_udim_file(self._open(), file_number(file), unsigned("tile", tile), byref(found)))
        return found.value

    def names(self) -> List[str]:
        """The paths of the files that have been found, in the order of their numbers."""
        return [os.fsdecode(lib.texcache_file_name(self._at, n)) for n in range(len(self))]

    def _report(self, call: Any, level: int) -> str:
        needed = c_size_t(4096)
        while True:
            buffer = create_string_buffer(needed.value)
            status = call(self._open(), unsigned("level", level), buffer, len(buffer), byref(needed))
            if status != SMALL_BUFFER:
                _check(status)
                return buffer.value.decode(errors="replace")

    def statistics(self, level: int = 1) -> str:
        """What the cache has done since it was opened, as a text. Level 2 has a line for each used file too."""
        return self._report(lib.texcache_statistics_text, level)

    def statistics_json(self, level: int = 1) -> Dict[str, Any]:
        """The numbers of `statistics`, as a dictionary."""
        found: Dict[str, Any] = json.loads(self._report(lib.texcache_statistics_json, level))
        return found

    def new_pass(self) -> "Pass":
        """A new pass, for one thread at a time, which you end. It is a context: `with cache.new_pass() as textures`."""
        return Pass(self)

    def this_thread(self) -> "Pass":
        """The pass of the calling thread: the same one at each call. It ends with the thread, or with the cache."""
        found = getattr(self._local, "own", None)
        if found is None or not found._at:
            found = self._local.own = Pass(self)
            self._thread_passes.add(found)
        return found


class Pass:
    """One thread's access to a cache: Cache.this_thread and Cache.new_pass make it.

    `answer` has the details of the latest call: answer.generation is the version of the file that the values are of.

    What a lookup takes:
    - file: the number that Cache.find gives.
    - s, t: fractions of the image, s from its left edge across, t from its upper edge down. They are numbers for one
      lookup, and arrays of one shape for many; a number among arrays counts for all.
    - swrap, twrap: BLACK, CLAMP, PERIODIC or MIRROR.
    - channels: how many values, 1 to 8.
    - floats: whether values are floats from 0 to 1 in place of 0 to 65535.
    - out: an array of yours that gets the values, of uint16, float32 or float16, with one axis more than s and t for the
      channels. C writes into it; one whose elements do not lie side by side costs a copy.

    and, by name alone:
    - first_channel: the channel of the file that comes first, 0 to 7.
    - fill: the value of channels that the file does not have, 0 if it is not given; fill_alpha: that of channel 3.
    - grey_to_rgb: whether a file of one or two channels has its grey three times, and then its alpha.
    - missing_color: a value for each channel, for a file that cannot be read, in place of an error.
    - lod_bias: added to the level. Footprints are 2**lod_bias times as large.
    - width, blur: of footprints, the factor of the derivatives, and what is added to the footprint in parts of the image;
      a number, or one for s and one for t.

    What a lookup gives is `out` if you gave one; else a list of channels for one lookup, and an array of uint16 or
    float32 with one axis more for many. Without numpy, many lookups take and give lists.

    A call that fails raises Refused. A number that no option can have is a ValueError or a TypeError.
    """

    _at: Any = None

    def __init__(self, cache: Cache) -> None:
        self._cache, self.answer = cache, Answer()
        at = c_void_p()
        _check(lib.texcache_new_pass(cache._open(), byref(at)))
        self._at = at

    def __repr__(self) -> str:
        return f"<texcache.Pass of {os.fsdecode(self._cache._folder)!r}{'' if self._at else ', ended'}>"

    def _open(self) -> Any:
        if not self._at:
            raise Closed("the pass has ended" if self._cache._at else "the cache is closed")
        return self._at

    def end(self) -> None:
        """Ends the pass, if it has not ended, and releases its tiles."""
        if self._at:
            _check(lib.texcache_end(byref(self._at)))

    def __enter__(self) -> "Pass":
        self._open()
        return self

    def __exit__(self, kind: Optional[Type[BaseException]], error: Optional[BaseException],
                 trace: Optional[TracebackType]) -> None:
        self.end()

    def __del__(self) -> None:
        _ended(self)

    def _called(self, call: Any, *words: Any) -> None:
        self.answer = Answer()
        _check(call(self._open(), *words, byref(self.answer)), self.answer)

    # ---- lookups

    def _many(self, file: int, options: TextureOptions, columns: Columns, floats: bool, out: Any) -> Found:
        # the call refuses other numbers of channels, and reads them first
        kinds = (FLOAT, HALF) if floats else (UINT16,) if out is None else (UINT16, FLOAT, HALF)
        values = Values((*columns.shape, min(max(options.channels, 1), 8)), out, kinds)
        self.answer = Answer()
        pass_ = self._open()
        if not columns.count:
            return values.all()
        done, at = c_size_t(), Coordinates(*columns.places, step=1)
        words = (pass_, file, byref(options), byref(at), columns.count)
        if values.kind == UINT16:
            status = lib.texcache_texture_many(*words, values.place, values.room, byref(done), byref(self.answer))
        else:
            results = Results(sizeof(Results), values.kind, values.room, values.place)
            status = lib.texcache_texture_results(*words, byref(results), byref(done), byref(self.answer))
        if status != OK:
            raise Refused(status, self.answer, values.first(done.value))
        return values.all()

    def _one(self, calls: Sequence[Any], file: int, options: TextureOptions, numbers: Sequence[float], floats: bool) -> Found:
        values: Any = (c_float * 8)() if floats else (c_uint16 * 8)()
        self._called(calls[floats], file, byref(options), *numbers, values, 8)
        return values[:options.channels]

    def texture(self, file: int, s: Numbers, t: Numbers, lod: float = 0.0, swrap: int = Wrap.PERIODIC,
                twrap: int = Wrap.PERIODIC, filter: int = Filter.BILINEAR, channels: int = 3, floats: bool = False,
                *, out: Any = None, first_channel: int = 0, fill: float = 0.0, fill_alpha: Optional[float] = None,
                grey_to_rgb: bool = False, missing_color: Optional[Sequence[float]] = None, lod_bias: float = 0.0) -> Found:
        """The values at s and t, in level `lod` (0 is the largest), by CLOSEST, BILINEAR or TRILINEAR. help(Pass) says what
        the other arguments are.

        All values of a call are of one version of the file, answer.generation. If the call fails, `values` of the Refused
        has those of the first lookups, which are valid.
        """
        more = (first_channel, fill, fill_alpha, grey_to_rgb, missing_color, lod_bias, 1.0, 0.0)
        options, file = texture_options((swrap, twrap, channels, filter, lod, 16), more), file_number(file)
        if out is None and isinstance(s, Real) and isinstance(t, Real):
            return self._one(ONE, file, options, (real("s", s), real("t", t)), flag("floats", floats))
        return self._many(file, options, Columns("st", (s, t)), flag("floats", floats), out)

    def texture_footprint(self, file: int, s: Numbers, t: Numbers, dsdx: Numbers, dtdx: Numbers, dsdy: Numbers,
                          dtdy: Numbers, max_probes: int = 16, swrap: int = Wrap.PERIODIC, twrap: int = Wrap.PERIODIC,
                          channels: int = 3, floats: bool = False, *, out: Any = None, first_channel: int = 0,
                          fill: float = 0.0, fill_alpha: Optional[float] = None, grey_to_rgb: bool = False,
                          missing_color: Optional[Sequence[float]] = None, lod_bias: float = 0.0,
                          width: Union[float, Sequence[float]] = 1.0, blur: Union[float, Sequence[float]] = 0.0) -> Found:
        """The values over the footprints of pixels. help(Pass) says what the other arguments are.

        The derivatives are those of s and t to the next pixel at the right (dsdx, dtdx) and to the one below (dsdy,
        dtdy). `max_probes` is the most probes over a footprint, 1 to 32.
        """
        more = (first_channel, fill, fill_alpha, grey_to_rgb, missing_color, lod_bias, width, blur)
        options, file = texture_options((swrap, twrap, channels, 0, 0, max_probes), more), file_number(file)
        names, numbers = ("s", "t", "dsdx", "dtdx", "dsdy", "dtdy"), (s, t, dsdx, dtdx, dsdy, dtdy)
        if out is None and all(isinstance(it, Real) for it in numbers):
            return self._one(OVER_ONE, file, options, tuple(map(real, names, numbers)), flag("floats", floats))
        return self._many(file, options, Columns(names, numbers), flag("floats", floats), out)

    # ---- lookups in the units of the program's requests

    def _fixed(self, call: Any, file: int, lookup: Lookup) -> List[int]:
        values = (c_uint16 * 8)()
        self._called(call, file_number(file), byref(lookup), values, 8)
        return values[:lookup.channels]

    @staticmethod
    def _lookup(s: int, t: int, lod: int, swrap: int, twrap: int, by: int, channels: int, steps: Sequence[int]) -> Lookup:
        names = ("dsdx", "dtdx", "dsdy", "dtdy")
        return Lookup(signed("s", s), signed("t", t), unsigned("lod", lod), unsigned("swrap", swrap),
                      unsigned("twrap", twrap), unsigned("filter", by), unsigned("channels", channels),
                      *map(signed, names, steps))

    def texture_fixed(self, file: int, s: int, t: int, lod: int = 0, swrap: int = Wrap.PERIODIC,
                      twrap: int = Wrap.PERIODIC, filter: int = Filter.BILINEAR, channels: int = 3) -> List[int]:
        """The values at S, T and LOD, whole numbers in 1/65536, as a request `tex` of the program."""
        return self._fixed(lib.texcache_texture_fixed, file,
                           self._lookup(s, t, lod, swrap, twrap, filter, channels, ()))

    def texture_d_fixed(self, file: int, s: int, t: int, dsdx: int, dtdx: int, dsdy: int, dtdy: int,
                        swrap: int = Wrap.PERIODIC, twrap: int = Wrap.PERIODIC, channels: int = 3) -> List[int]:
        """The values along the footprint of these derivatives, in 1/65536, as a request `texd` of the program."""
        return self._fixed(lib.texcache_texture_d_fixed, file,
                           self._lookup(s, t, 0, swrap, twrap, 0, channels, (dsdx, dtdx, dsdy, dtdy)))

    def texture_local_fixed(self, file: int, s: int, t: int, lod: int = 0, swrap: int = Wrap.PERIODIC,
                            twrap: int = Wrap.PERIODIC, filter: int = Filter.BILINEAR,
                            channels: int = 3) -> Optional[List[int]]:
        """The values at S, T and LOD if the pass's two latest tiles have all texels; otherwise None. Never reads."""
        try:
            return self._fixed(lib.texcache_texture_local_fixed, file,
                               self._lookup(s, t, lod, swrap, twrap, filter, channels, ()))
        except Refused as refused:
            if refused.status == NOT_LOCAL:
                return None
            raise

    # ---- files, regions and tiles

    def info(self, file: int) -> Info:
        """Size, channels, depth and levels of a file."""
        info = Info()
        self._called(lib.texcache_get_info, file_number(file), byref(info))
        return info

    def pixels(self, file: int, level: int, x: int, y: int, w: int, h: int, *, out: Any = None) -> Found:
        """The values of a region of a level, 0 to 65535: an array of uint16 of rows, columns and channels, or `out`.
        Outside the level they are 0. Without numpy it is one list. A region has at most 1048576 texels."""
        region = Region(unsigned("level", level), signed("x", x), signed("y", y), unsigned("w", w), unsigned("h", h))
        file, fits = file_number(file), region.w * region.h <= MOST_TEXELS
        channels = self.info(file).channels if fits else 1
        while True:
            values = Values((h, w, channels) if fits else (0, 0, 1), out if fits else None)
            self.answer = Answer()
            status = lib.texcache_get_pixels(self._open(), file, byref(region), values.place, values.room,
                                             byref(self.answer))
            if status != SMALL_BUFFER and (status != OK or self.answer.channels == channels):
                break
            # the file was replaced, and has other channels
            channels = self.answer.channels or self.answer.value // max(1, w * h)
        _check(status, self.answer)
        return values.flat()

    def get_tile(self, file: int, level: int, x: int, y: int) -> int:
        """Holds the cell of a texel, and returns its generation. A pass holds at most four; the oldest is at place 0."""
        self._called(lib.texcache_get_tile, file_number(file), unsigned("level", level), unsigned("x", x),
                     unsigned("y", y))
        return self.answer.generation

    def tile_at(self, place: int) -> Tile:
        """The rectangle and the channels of the tile that is held at a place."""
        tile = Tile()
        _check(lib.texcache_tile_at(self._open(), whole("place", place, 0, 2 ** 64 - 1), byref(tile)))
        return tile

    def tile_texels(self, place: int, *, out: Any = None) -> Found:
        """The samples of a held tile, in the depth of the file: an array of uint16 of rows, columns and channels, or
        `out`. Without numpy it is one list."""
        tile = self.tile_at(place)
        values = Values((tile.h, tile.w, tile.channels), out)
        _check(lib.texcache_tile_texels(self._open(), place, values.place, values.room))
        return values.flat()

    def release_tile(self, place: int) -> None:
        """Releases the tile that is held at a place. The later ones move up."""
        _check(lib.texcache_release_tile(self._open(), whole("place", place, 0, 2 ** 64 - 1)))

    # ---- replaced files

    def invalidate(self, file: int, force: bool = False) -> int:
        """Checks whether the file was replaced, and returns its newest generation. With `force` its tiles are dropped and
        it is opened again in any case."""
        self._called(lib.texcache_invalidate, file_number(file), flag("force", force))
        return self.answer.generation

    def invalidate_all(self) -> None:
        """Checks each known file. After a failure answer.part is the first file that failed, and answer.value how many."""
        self._called(lib.texcache_invalidate_all)

    # ---- counts

    def stats(self) -> Statistics:
        """What the pass has counted, and what all passes of the cache looked at, opened and read."""
        found = Statistics()
        _check(lib.texcache_stats(self._open(), byref(found)))
        return found

    def shard_stats(self, shard: int) -> Shard:
        """Tiles, pins and bytes of a shard."""
        found = Shard()
        _check(lib.texcache_shard_stats(self._open(), unsigned("shard", shard), byref(found)))
        return found
