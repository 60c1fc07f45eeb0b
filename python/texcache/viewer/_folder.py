"""The textures of the viewer: a cache, the passes that requests borrow, and a thread that notices replaced files.

A request borrows one of a few passes for as long as it looks up and encodes. It gives the pass back before it writes to
its client. So a slow client never holds a pass, and the memory of all requests together has a limit.
"""
from __future__ import annotations

import contextlib
import json
import os
import queue
import stat
import threading
import time
from collections import deque
from typing import Any, Callable, Deque, Dict, Iterator, List, NamedTuple, Optional, Tuple
from urllib.parse import quote

import numpy

from .. import BLACK, CLAMP, CLOSEST, MIRROR, PERIODIC, TRILINEAR, Cache, Info, Pass, Refused

PASSES = 8           # how many requests look up at the same time
WAIT = 60.0          # seconds that a request waits for a pass
POLL = 0.5           # seconds between two checks of the folder
TRIES = 32           # how often a request begins again if its file is replaced meanwhile
MOST = 1 << 20       # texels of one region, the library's limit
THUMBNAIL = 256      # the longer side of a thumbnail
BLOCK = 128          # the side of what is looked up at once in a scaled image
LARGE = 1 << 22      # texels of the smallest stored level, from which on a thumbnail shows samples of it
SAMPLED = 1 << 28    # bytes that samples may read, each cell with CELL more: about half a second
CELL = 12288
SMALLEST = 16        # the side of the cells of a file in strips, while samples of it are read
WRAPS = {"black": BLACK, "clamp": CLAMP, "periodic": PERIODIC, "mirror": MIRROR}
REMEDY = " What helps: "
# the statuses of texcache.h for a file that the library does not accept
BAD_FILE, TILE_TOO_LARGE = 10, 11


class Busy(Exception):
    """The viewer cannot answer now; its text says why."""


class Absent(Exception):
    """Something that the file does not have was asked for; the text says what."""


class Texels(NamedTuple):
    """Values of texels, 0 to 65535, in rows, columns and channels; their file's facts and generation."""
    values: Any
    info: Info
    generation: int


# gives the places of the columns and of the rows for a file's facts, as fractions of the image
Places = Callable[[Info], Tuple[Any, Any]]


def level_size(info: Info, level: int) -> Tuple[int, int]:
    return max(1, info.width >> level), max(1, info.height >> level)


def thumbnail_level(info: Info) -> int:
    """The largest level that fits into a thumbnail; the file may have fewer."""
    level = 0
    while max(level_size(info, level)) > THUMBNAIL:
        level += 1
    return level


def is_sampled(info: Info) -> bool:
    """Whether a thumbnail shows single texels of the smallest stored level, because making the level that fits would read
    all of a large file."""
    wide, high = level_size(info, info.stored - 1)
    return thumbnail_level(info) >= info.stored and wide * high >= LARGE


def folded(place: Any, wrap: str) -> Any:
    """The place inside the image that a place anywhere stands for."""
    if wrap == "periodic":
        return place - numpy.floor(place)
    if wrap == "mirror":
        return 1 - numpy.abs(place - 2 * numpy.floor(place / 2) - 1)
    return place


def _indices(places: Any, count: int) -> Any:
    """The texels, along one side of a level, at these fractions."""
    return numpy.clip(numpy.floor(places * count), 0, count - 1).astype(numpy.int64)


def in_words(refused: Refused) -> Dict[str, Any]:
    """The reason of a refused file, and what helps."""
    reason, _, remedy = str(refused).partition(REMEDY)
    return {"reason": reason, "remedy": remedy}


class Events:
    """What pages are told of: the latest events, each with its number."""

    def __init__(self) -> None:
        self.latest: Deque[Tuple[int, bytes]] = deque(maxlen=256)
        self.number, self.listeners, self.is_closed, self.changed = 0, 0, False, threading.Condition()

    def add(self, kind: str, facts: Dict[str, Any]) -> None:
        with self.changed:
            self.number += 1
            self.latest.append((self.number, f"event: {kind}\ndata: {json.dumps(facts)}\n\n".encode()))
            self.changed.notify_all()

    def close(self) -> None:
        with self.changed:
            self.is_closed = True
            self.changed.notify_all()

    def after(self, number: int, seconds: float) -> Tuple[int, List[bytes], bool]:
        """The events behind this number, after a wait for one; and whether some of them are lost."""
        with self.changed:
            self.changed.wait_for(lambda: self.number > number or self.is_closed, seconds)
            found = [it for n, it in self.latest if n > number]
            return self.number, found, len(found) < self.number - number


class Passes:
    """The passes that requests borrow. Who waits longest gets the next one."""

    def __init__(self) -> None:
        self.lock, self.free = threading.Lock(), []  # type: Any, List[Pass]
        self.waiting: "Deque[queue.SimpleQueue[Pass]]" = deque()

    def put(self, textures: Pass) -> None:
        with self.lock:
            if self.waiting:
                self.waiting.popleft().put(textures)
            else:
                self.free.append(textures)

    def get(self, seconds: float) -> Pass:
        """A pass, after a wait of so long at most; then it is queue.Empty."""
        with self.lock:
            if self.free:
                return self.free.pop()
            own: "queue.SimpleQueue[Pass]" = queue.SimpleQueue()
            self.waiting.append(own)
        try:
            return own.get(timeout=seconds)
        except queue.Empty:
            with self.lock:
                if own in self.waiting:
                    self.waiting.remove(own)
                    raise
            # one was handed over at the last moment
            return own.get_nowait()


class Folder:
    """A folder of textures."""

    def __init__(self, path: str, budget: int) -> None:
        self.path, self.budget, self.events, self.ends = path, budget, Events(), threading.Event()
        # one pass is for the thread that watches, and one is the cache's own
        self.cache = Cache(path, budget=budget, passes=PASSES + 2, refuse_links=True)
        self.cache.find_all()
        self.names = self.cache.names()
        self.ids = [quote(os.fsencode(it), safe="") for it in self.names]
        self.numbers = {os.fsencode(it): n for n, it in enumerate(self.names)}
        self.passes = Passes()
        for _ in range(PASSES):
            self.passes.put(self.cache.new_pass())
        self.stamps = [self._stamp(it) for it in self.names]
        self.thread = threading.Thread(target=self._watch, name="watch", daemon=True)
        self.thread.start()

    def close(self, seconds: float = 10.0) -> bool:
        """Waits for lookups, ends all passes and closes the cache. Returns whether no lookup was left."""
        self.ends.set()
        self.events.close()
        self.thread.join(seconds)
        if self.thread.is_alive():
            return False
        last = time.monotonic() + seconds
        for _ in range(PASSES):
            try:
                self.passes.get(max(0.0, last - time.monotonic())).end()
            except queue.Empty:
                return False
        self.cache.close()
        return True

    @contextlib.contextmanager
    def lent(self) -> Iterator[Pass]:
        """A pass, for one request."""
        if self.ends.is_set():
            raise Busy("the viewer is ending")
        try:
            textures = self.passes.get(WAIT)
        except queue.Empty:
            raise Busy(f"{PASSES} other requests took more than {WAIT:.0f} seconds; try again") from None
        try:
            yield textures
        finally:
            self.passes.put(textures)

    # ---- facts

    def facts(self, textures: Pass, number: int) -> Dict[str, Any]:
        """What the pages show of a file; of a refused one the reason and what helps."""
        found: Dict[str, Any] = {"id": self.ids[number], "name": self.names[number]}
        try:
            info = textures.info(number)
        except Refused as refused:
            return {**found, **in_words(refused), "generation": refused.answer.generation}
        sizes = [level_size(info, it) for it in range(info.levels)]
        return {**found, "width": info.width, "height": info.height, "channels": info.channels, "depth": info.depth,
                "stored": info.stored, "levels": info.levels, "sizes": sizes, "sampled": is_sampled(info),
                "generation": textures.answer.generation}

    def statistics(self, textures: Pass) -> Dict[str, Any]:
        """What the live panel shows."""
        found = self.cache.statistics_json(1)
        shards = [textures.shard_stats(it) for it in range(textures.stats().own.shards)]
        return {**{it: found.get(it, 0) for it in ("lookups", "needs", "hits", "uncached", "looks", "opens", "reads", "bytes",
                                                  "tiles", "tile_bytes", "budget", "peak_process_bytes")},
                "tiles_of_shards": [it.tiles for it in shards], "bytes_of_shards": [it.loose for it in shards],
                "share": shards[0].share if shards else 0, "seconds": time.monotonic()}

    # ---- texels

    @staticmethod
    def texels(textures: Pass, number: int, level: int, places: Places, wrap: Optional[str] = None) -> Texels:
        """The texels of a level at the places of columns and rows, all of one generation. Without a wrap the places are
        inside the image."""
        for _ in range(TRIES):
            info = textures.info(number)
            generation = textures.answer.generation
            if level >= info.levels:
                raise Absent(f"the file has the levels 0 to {info.levels - 1}, and no level {level}")
            across, down = places(info)
            values = _read(textures, number, level, info, across, down, wrap)
            if textures.answer.generation == generation:
                return Texels(values, info, generation)
        raise Busy("the file is replaced each time it is read; try again")

    @staticmethod
    def scaled(textures: Pass, number: int, size: Callable[[Info], Tuple[int, int, float]]) -> Texels:
        """The whole image in another size: `size` gives columns, rows and the level for its facts. Filtered."""
        for _ in range(TRIES):
            info = textures.info(number)
            generation = textures.answer.generation
            columns, rows, level = size(info)
            values = numpy.empty((rows, columns, min(info.channels, 8)), numpy.uint16)
            if all(it == generation for it in _scaled(textures, number, values, level)):
                return Texels(values, info, generation)
        raise Busy("the file is replaced each time it is read; try again")

    def thumbnail(self, textures: Pass, number: int) -> Texels:
        """The largest level that fits, or a scaled image if no level does. Of a large file that would have to be read as a
        whole it is samples."""
        info = textures.info(number)
        level = thumbnail_level(info)
        if is_sampled(info):
            return self.samples(textures, number)
        if level >= info.levels:
            return self.scaled(textures, number, lambda it: (*level_size(it, level), it.levels - 1))

        def places(found: Info) -> Tuple[Any, Any]:
            wide, high = level_size(found, level)
            wide, high = min(wide, THUMBNAIL), min(high, THUMBNAIL)
            return (numpy.arange(wide) + 0.5) / wide, (numpy.arange(high) + 0.5) / high

        return self.texels(textures, number, level, places, "clamp")

    def samples(self, textures: Pass, number: int) -> Texels:
        """Nearest texels of the smallest stored level, at the middles of the thumbnail's pixels."""
        for _ in range(TRIES):
            textures.invalidate(number)
            info = textures.info(number)
            generation = textures.answer.generation
            # in a cache of its own, cells of files in strips can be small, and nothing else loses its tiles
            with Cache(self.path, budget=1 << 26, shards=1, passes=2, autotile=SMALLEST, automip=False, refuse_links=True) as cache:
                with cache.new_pass() as own:
                    values = _sampled(own, cache.find(self.names[number]), info)
            # if the file was not replaced meanwhile, that cache read this version too
            textures.invalidate(number)
            if textures.answer.generation == generation:
                return Texels(values, info, generation)
        raise Busy("the file is replaced each time it is read; try again")

    # ---- replaced files

    def _stamp(self, name: str) -> Optional[Tuple[int, ...]]:
        """What changes if a file is replaced; None if no plain file has the name any more."""
        try:
            found = os.stat(os.path.join(self.path, name), follow_symlinks=False)
        except OSError:
            return None
        return (found.st_size, found.st_mtime_ns, found.st_ino) if stat.S_ISREG(found.st_mode) else None

    def is_plain(self, number: int) -> bool:
        return self._stamp(self.names[number]) is not None

    def _watch(self) -> None:
        """Checks each file twice a second, and counts for the live panel once a second if a page listens."""
        told = 0.0
        with self.cache.new_pass() as textures:
            while not self.ends.wait(POLL):
                try:
                    for number, name in enumerate(self.names):
                        found = self._stamp(name)
                        if found != self.stamps[number]:
                            self._replaced(textures, number, found)
                    if self.events.listeners and time.monotonic() - told >= 0.99:
                        told = time.monotonic()
                        self.events.add("statistics", self.statistics(textures))
                except Refused as refused:
                    # the next round tries again
                    self.events.add("trouble", {"reason": str(refused)})

    def _replaced(self, textures: Pass, number: int, found: Optional[Tuple[int, ...]]) -> None:
        self.stamps[number] = found
        try:
            textures.invalidate(number)
        except Refused:
            # the facts say what is wrong
            pass
        self.events.add("file", self.facts(textures, number))


def _sampled(textures: Pass, number: int, info: Info) -> Any:
    """The values of a thumbnail, each that of a nearest texel of the smallest stored level. If samples for all pixels would
    read too much there are fewer, and neighbours share one."""
    level = info.stored - 1
    textures.get_tile(number, level, 0, 0)
    cell = textures.tile_at(0)
    textures.release_tile(0)
    cost = cell.w * cell.h * info.channels * info.depth // 8 + CELL
    across, down = (-(-it // n) for it, n in zip(level_size(info, level), (cell.w, cell.h)))
    wide, high = level_size(info, thumbnail_level(info))
    for part in (64, 48, 32, 24, 16, 12, 8, 4, 2, 1):
        columns, rows = max(1, wide * part // 64), max(1, high * part // 64)
        if min(columns, across) * min(rows, down) * cost <= SAMPLED:
            break
    s, t = numpy.meshgrid((numpy.arange(columns) + 0.5) / columns, (numpy.arange(rows) + 0.5) / rows)
    values = textures.texture(number, s, t, lod=float(level), swrap=CLAMP, twrap=CLAMP, filter=CLOSEST,
                              channels=min(info.channels, 8))
    return values[numpy.arange(high) * rows // high][:, numpy.arange(wide) * columns // wide]


def _scaled(textures: Pass, number: int, values: Any, level: float) -> Iterator[int]:
    """Fills the values, and gives the generation of each block. A block is near: in rows as long as the image, levels
    that are generated would be generated again for each row."""
    rows, columns = values.shape[:2]
    for top in range(0, rows, BLOCK):
        for left in range(0, columns, BLOCK):
            part = values[top:top + BLOCK, left:left + BLOCK]
            s, t = numpy.meshgrid((numpy.arange(left, left + part.shape[1]) + 0.5) / columns,
                                  (numpy.arange(top, top + part.shape[0]) + 0.5) / rows)
            textures.texture(number, s, t, lod=level, swrap=CLAMP, twrap=CLAMP, filter=TRILINEAR, channels=values.shape[2],
                             out=part)
            yield textures.answer.generation


def _read(textures: Pass, number: int, level: int, info: Info, across: Any, down: Any, wrap: Optional[str]) -> Any:
    """Reads texels of a level by one call, so that all are of one generation."""
    wide, high = level_size(info, level)
    if wrap in (None, "clamp"):
        columns, rows = _indices(across, wide), _indices(down, high)
        left, top = int(columns.min()), int(rows.min())
        w, h = int(columns.max()) - left + 1, int(rows.max()) - top + 1
        if w * h <= MOST:
            found = textures.pixels(number, level, left, top, w, h)
            return found[rows - top][:, columns - left]
    s, t = numpy.meshgrid(across, down)
    mode = WRAPS[wrap or "clamp"]
    return textures.texture(number, s, t, lod=float(level), swrap=mode, twrap=mode, filter=CLOSEST,
                            channels=min(info.channels, 8))
