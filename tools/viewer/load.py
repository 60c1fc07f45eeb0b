"""Many clients at once against a large texture: 200 clients with 20 requests each, and a budget of 64 MB."""
import http.client
import random
import threading
import time

import numpy

from served import Formula, pixels

CLIENTS, REQUESTS, BUDGET = 200, 20, 64
BIG = Formula("big.tif", 16384, 8192, 3, 8, 256)
# beside the budget: Python with its modules, read-ahead, tiles in hand and images of each pass, and threads
BESIDE = 160 << 20


def paths(name):
    """The zoom and place of each request of a client, half of them of level 0."""
    drawn = random.Random(f"client {name}")
    for _ in range(REQUESTS):
        level = drawn.choice([0, 0, 0, 1, 2, 3, 5])
        w, h = BIG.sizes[level]
        yield level, drawn.randrange(-(-w // 256)), drawn.randrange(-(-h // 256))


def is_right(body, level, x, y):
    w, h = (min(256, n - 256 * it) for n, it in zip(BIG.sizes[level], (x, y)))
    found = pixels(body)
    return bool((found[:h, :w, :3] == BIG.samples(level, 256 * x, 256 * y, w, h)).all())


class Client(threading.Thread):
    """A client that asks for one tile after the other, over one connection."""

    def __init__(self, viewer, name, start):
        super().__init__()
        self.viewer, self.number, self.start_line, self.times, self.errors, self.last = viewer, name, start, [], [], None

    def run(self):
        connection = http.client.HTTPConnection(self.viewer.host, self.viewer.port, timeout=120)
        self.start_line.wait()
        for place in paths(self.number):
            began = time.monotonic()
            try:
                connection.request("GET", f"/tile/big.tif/{-place[0]}/{place[1]}/{place[2]}.png")
                reply = connection.getresponse()
                body = reply.read()
            except (OSError, http.client.HTTPException) as error:
                self.errors.append(repr(error))
                connection.close()
                continue
            self.times.append(time.monotonic() - began)
            if reply.status != 200:
                self.errors.append(body[:200])
            self.last = body, *place
        connection.close()


def run(tests):
    BIG.write(tests.folder)
    size = (tests.folder / "big.tif").stat().st_size
    with tests.viewer("--budget", str(BUDGET)) as viewer:
        before = viewer.memory()
        start = threading.Barrier(CLIENTS + 1)
        clients = [Client(viewer, it, start) for it in range(CLIENTS)]
        for it in clients:
            it.start()
        start.wait()
        began = time.monotonic()
        for it in clients:
            it.join()
        seconds = time.monotonic() - began
        times = numpy.array([it for client in clients for it in client.times])
        errors = [it for client in clients for it in client.errors]
        memory = viewer.memory()
        found = viewer.json("/api/statistics")
        tests.say(not errors and len(times) == CLIENTS * REQUESTS,
                  f"{CLIENTS} clients with {REQUESTS} requests each against {size / 1e6:.0f} MB: no error", errors[:3])
        tests.say(all(is_right(*client.last) for client in clients), "the last tile of each client is as the formula says")
        print(f"{len(times) / seconds:.0f} tiles a second; a tile takes {1e3 * numpy.median(times):.0f} ms in the middle, and "
              f"{1e3 * numpy.percentile(times, 95):.0f} ms at 95 of 100; {found['bytes'] / 1e6:.0f} MB were read")
        tests.say(found["tile_bytes"] <= BUDGET << 20, f"tiles keep the budget: {found['tile_bytes'] / 1e6:.1f} MB", found)
        tests.say(memory <= (BUDGET << 20) + BESIDE,
                  f"the viewer had {memory / 1e6:.0f} MB of memory at most, {before / 1e6:.0f} MB before", memory)
        # alone: what one person sees
        alone = []
        for place in paths("alone"):
            at = time.monotonic()
            viewer.get(f"/tile/big.tif/{-place[0]}/{place[1]}/{place[2]}.png")
            alone.append(time.monotonic() - at)
        print(f"one client alone: {1e3 * numpy.median(alone):.0f} ms in the middle, {1e3 * max(alone):.0f} ms at most")
