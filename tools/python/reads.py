"""Tests that Python's other threads run during each call that may read: reads FOLDER, the demo's. It runs with
slow_reads.c in front of the library. A thread counts while the call waits; it could not if the call kept the
interpreter's lock."""
import argparse
import ctypes
import sys
import threading
import time

# how many steps of a millisecond the other thread makes at least, while a call waits for some 60
LEAST = 15
# how often a call is tried: on a busy machine the other thread may not get a processor in that time
TRIES = 20


class Counter(threading.Thread):
    """Counts milliseconds."""

    def __init__(self):
        super().__init__(daemon=True)
        self.count = 0

    def run(self):
        while True:
            time.sleep(0.001)
            self.count += 1


def calls(texcache):
    """Each call that may read, by its name."""
    numpy = texcache.numpy
    s = numpy.linspace(0, 1, 100) if numpy else [it / 100 for it in range(100)]
    step = [0.01] * 100
    yield "find", lambda textures, file: textures._cache.find("rings.tif")
    yield "find_all", lambda textures, file: textures._cache.find_all()
    yield "info", lambda textures, file: textures.info(file)
    yield "texture", lambda textures, file: textures.texture(file, 0.5, 0.5)
    yield "texture, floats", lambda textures, file: textures.texture(file, 0.5, 0.5, floats=True)
    yield "texture, many", lambda textures, file: textures.texture(file, s, s)
    yield "texture, many floats", lambda textures, file: textures.texture(file, s, s, floats=True)
    yield "footprint", lambda textures, file: textures.texture_footprint(file, 0.5, 0.5, 0.01, 0, 0, 0.01)
    yield "footprint, floats", lambda textures, file: textures.texture_footprint(file, 0.5, 0.5, 0.01, 0, 0, 0.01, floats=True)
    yield "footprint, many", lambda textures, file: textures.texture_footprint(file, s, s, step, step, step, step)
    yield "texture_fixed", lambda textures, file: textures.texture_fixed(file, 32768, 32768)
    yield "texture_d_fixed", lambda textures, file: textures.texture_d_fixed(file, 32768, 32768, 600, 0, 0, 600)
    yield "pixels", lambda textures, file: textures.pixels(file, 0, 0, 0, 8, 8)
    yield "get_tile", lambda textures, file: textures.get_tile(file, 0, 1, 1)
    yield "invalidate", lambda textures, file: textures.invalidate(file)
    yield "invalidate_all", lambda textures, file: textures.invalidate_all()


def steps_during(texcache, folder, named, slow, counter):
    """How many steps the other thread makes while a call reads from a new cache."""
    name, call = named
    with texcache.Cache(folder) as cache, cache.new_pass() as textures:
        file = cache.find("bricks.tif")
        if name.startswith("invalidate"):
            textures.info(file)
        slow.value, before = 1, counter.count
        call(textures, file)
        slow.value = 0
        return counter.count - before


def main(texcache, folder):
    slow = ctypes.c_int.in_dll(ctypes.CDLL(None), "texcache_slow")
    counter, wrong, tried = Counter(), [], 0
    counter.start()
    for name, call in calls(texcache):
        tried += 1
        most = 0
        for _ in range(TRIES):
            most = max(most, steps_during(texcache, folder, (name, call), slow, counter))
            if most >= LEAST:
                break
        else:
            wrong.append(f"{name}: the other thread made at most {most} steps")
    print(*wrong, f"{tried} calls, {len(wrong)} keep the lock", sep="\n")
    return 1 if wrong or tried != 16 else 0


if __name__ == "__main__":
    PARSER = argparse.ArgumentParser(description=__doc__)
    PARSER.add_argument("folder")
    FOLDER = PARSER.parse_args().folder
    import texcache as package  # once the arguments are right: it loads the library
    sys.exit(main(package, FOLDER))
