"""What the viewer answers over HTTP: tiles and values beside formulas, IIIF, bad paths, replaced files, slow clients."""
import json
import os
import random
import signal
import socket
import struct
import subprocess
import sys
import threading
import time
from fractions import Fraction
from math import floor

import numpy

from served import Blocks, Formula, Plain, Smooth, Viewer, pixels, replace, until
from texcheck.tiff import LITTLE, LONG, LONG8, MARKS, SHORT, WIDE, directory

FILES = [Formula("rgb.tif", 700, 500, 3, 8, 64), Formula("deep.tif", 300, 200, 3, 16, 64),
         Formula("four.tif", 100, 37, 4, 8, 16), Formula("two.tif", 64, 64, 2, 8, 32), Formula("grey.tif", 1000, 30, 1, 16, 32)]
SMOOTH, BLOCKS = Smooth("smooth.tif", 512, 512, 3, 8, 64), Blocks("blocks.tif", 128, 64, 3, 8, 64, levels=1)
ODD, SAMPLES = Formula("a b#ü%.tif", 40, 30, 3, 8, 16), Formula("samples.tif", 4096, 2048, 1, 8, 64, levels=1)
ODD_ID = "a%20b%23%C3%BC%25.tif"
# a name that is no UTF-8
BYTES = Formula(os.fsdecode(b"odd\xff.tif"), 40, 30, 3, 8, 16)
WRAPS = {"periodic": lambda it: it % 1, "mirror": lambda it: 1 - abs(it % 2 - 1),
         "clamp": lambda it: min(max(it, Fraction(0)), Fraction(1)), "black": lambda it: it if 0 <= it < 1 else None}


def index(place, count):
    """The texel at a fraction of the image; None outside."""
    return None if place is None else min(floor(place * count), count - 1)


def expected(texture, level, across, down, channels):
    """The 8-bit values of a tile at these places, black outside."""
    whole, (w, h) = texture.narrow(texture.whole(level)), texture.sizes[level]
    columns, rows = [index(it, w) for it in across], [index(it, h) for it in down]
    found = whole[[it or 0 for it in rows]][:, [it or 0 for it in columns]][:, :, channels]
    found[[it is None for it in rows]] = 0
    found[:, [it is None for it in columns]] = 0
    return found


def places(x, side, level, size, wrap):
    """Where the columns or rows of a tile are, and which are inside."""
    at = [Fraction((2 * (x * side + it) + 1) << level, 2 * size) for it in range(side)]
    low, high = (-8, 8) if wrap else (0, 1)
    return [WRAPS[wrap](it) if wrap else it for it in at if low <= it < high], [low <= it < high for it in at]


def is_sharp(place, count):
    """Whether a place is not between two texels."""
    return (place * count).denominator > 1


def tile_is_right(viewer, texture, z, x, y, channel="rgb", wrap=None):
    """Whether a tile has the formula's values inside, and is transparent outside."""
    level, side = max(0, -z), 256 >> max(0, z)
    usual = [0, 1, 2] if texture.channels > 2 else [0]
    channels = usual if channel == "rgb" else [texture.channels - 1] if channel == "a" else [int(channel)]
    (across, right), (down, low) = (places(*it, wrap) for it in ((x, side, level, texture.sizes[0][0]),
                                                                 (y, side, level, texture.sizes[0][1])))
    found, generation = viewer.image(f"/tile/{texture.name}/{z}/{x}/{y}.png?channel={channel}&wrap={wrap or 'none'}")
    inside = numpy.outer(numpy.array(low, bool), numpy.array(right, bool))
    wanted = numpy.zeros((side, side, len(channels)), numpy.uint8)
    wanted[inside] = expected(texture, level, across, down, channels).reshape(-1, len(channels))
    if not inside.all():
        alpha = numpy.where(inside, 255, 0).astype(numpy.uint8)[:, :, None]
        wanted = numpy.concatenate([wanted, alpha], axis=2)
    if generation != 1 or found.shape != wanted.shape:
        return False
    # the middle of a tile's pixel may be exactly between two texels; wraps round there in their own ways
    sharp = [numpy.array([wrap is None or is_sharp(Fraction((2 * (at * side + it) + 1) << level, 2 * n), count)
                          for it in range(side)]) for at, n, count in zip((y, x), texture.sizes[0][::-1], texture.sizes[level][::-1])]
    return bool((found == wanted)[numpy.outer(*sharp)].all())


def tiles(tests, viewer):
    drawn, wrong, count = random.Random("tiles"), [], 0
    for texture in FILES:
        (width, height), levels = texture.sizes[0], len(texture.sizes)
        for z in range(1 - levels, 7):
            side = (256 << max(0, -z)) >> max(0, z)
            for _ in range(3):
                x, y = drawn.randrange(-(-width // side)), drawn.randrange(-(-height // side))
                wrap = drawn.choice([None, None, *WRAPS])
                if wrap:
                    x, y = (it + drawn.choice([-1, 0, 1]) * n // side for it, n in ((x, width), (y, height)))
                names = [str(it) for it in range(texture.channels)] + ["a"] * (texture.channels in (2, 4))
                case = z, x, y, drawn.choice(["rgb", *names]), wrap
                # the last tile of a level may have no texel's middle inside, and wraps end at 8 images
                if not all(places(a, 256 >> max(0, z), max(0, -z), n, wrap)[0] for a, n in ((x, width), (y, height))):
                    continue
                count += 1
                if not tile_is_right(viewer, texture, *case):
                    wrong.append((texture.name, *case))
    tests.say(count > 100 and not wrong, f"{count} tiles of all zooms, channels and wraps are as the formulas say", wrong[:5])
    found, _ = viewer.image("/tile/blocks.tif/-1/0/0.png")
    tests.say((found[:32, :64, :3] == BLOCKS.whole(0)[::2, ::2]).all(), "a generated level", found[:2, :2])
    for texture in (*FILES, BLOCKS):
        found, _ = viewer.image(f"/thumb/{texture.name}")
        level = next(n for n in range(12) if max(it >> n for it in texture.sizes[0]) <= 256)
        is_so = found.shape[:2] == tuple(max(1, it >> level) for it in texture.sizes[0][::-1])
        if level < len(texture.sizes):
            whole = texture.narrow(texture.whole(level))
            is_so = is_so and (found == whole[:, :, :3 if texture.channels > 2 else 1]).all()
        tests.say(is_so, f"the thumbnail of {texture.name}", found.shape)


def large_strips(path):
    """A file of one level, 16384 by 16384 texels in strips of a row. 64 rows in turn are the same bytes of the file, which
    has 4 MB. Returns the value of a texel."""
    side, form = 16384, WIDE[LITTLE]

    def value(x, y):
        return (x // 5 + 3 * (y // 64)) % 256

    def fields(offsets):
        return [(256, LONG, [side]), (257, LONG, [side]), (258, SHORT, [8]), (259, SHORT, [1]), (262, SHORT, [1]),
                (273, LONG8, offsets), (277, SHORT, [1]), (278, LONG, [1]), (279, LONG, [side] * side)]

    first = 16 + len(directory(LITTLE, form, fields([0] * side), 16, 0))
    with open(path, "wb") as file:
        file.write(MARKS[LITTLE] + b"\x2b\0" + form.behind + (16).to_bytes(8, "little"))
        file.write(directory(LITTLE, form, fields([first + side * (y // 64) for y in range(side)]), 16, 0))
        for y in range(0, side, 64):
            file.write(value(numpy.arange(side), y).astype("u1").tobytes())
    return value


def samples(tests, viewer):
    """Thumbnails of large files with one level show nearest texels, within about a second."""
    texture, value = SAMPLES, large_strips(tests.folder / "strips.tif")
    columns, rows = numpy.meshgrid(16 * numpy.arange(256) + 8, 16 * numpy.arange(128) + 8)
    found, _ = viewer.image("/thumb/samples.tif")
    tests.say(viewer.json("/api/file/samples.tif")["sampled"] and not viewer.json("/api/file/rgb.tif")["sampled"]
              and not viewer.json("/api/file/blocks.tif")["sampled"], "the facts say which thumbnails are samples")
    tests.say(found.shape == (128, 256, 1) and (found[:, :, 0] == texture.whole(0)[rows, columns, 0]).all(),
              "a thumbnail of samples, of a file in tiles", found.shape)
    replace(tests.folder, Formula("samples.tif", 4096, 2048, 1, 8, 64, levels=1, seed=9))
    found, generation = viewer.image("/thumb/samples.tif")
    tests.say((found[:, :, 0] == (texture.whole(0)[rows, columns, 0] + 9) % 256).all() and generation == 2,
              "and of the file that replaces it", generation)
    # the viewer knows the files that were there when it began
    with tests.viewer() as other:
        began = time.monotonic()
        found, _ = other.image("/thumb/strips.tif")
        took, memory = time.monotonic() - began, other.memory() >> 20
        # 128 by 128 samples for 256 by 256 pixels
        at = 128 * (numpy.arange(256) // 2) + 64
        tests.say((found[:, :, 0] == value(at[None, :], at[:, None])).all(), "of a file in strips, with half as many samples", found[:4, :4, 0])
        tests.say(took < 5 and memory < 250, f"16384 by 16384 texels of one level: {took:.2f} s, {memory} MB", (took, memory))
    (tests.folder / "strips.tif").unlink()


def values(tests, viewer):
    drawn, wrong = random.Random("values"), []
    for n in range(200):
        texture, wrap = drawn.choice(FILES), drawn.choice(list(WRAPS))
        level = drawn.randrange(len(texture.sizes))
        w, h = texture.sizes[level]
        # the middle of a quarter of a texel: no rounding can move it to another one
        s, t = (Fraction(8 * drawn.randrange(-n, 2 * n) + drawn.choice([1, 3, 5, 7]), 8 * n) for n in (w, h))
        found = viewer.json(f"/value/{texture.name}?s={float(s)!r}&t={float(t)!r}&level={level}&wrap={wrap}")
        texel = [index(WRAPS[wrap](it), n) for it, n in ((s, w), (t, h))]
        texel = None if None in texel else texel
        samples = texture.samples(level, *texel, 1, 1)[0, 0] if texel else numpy.zeros(texture.channels, int)
        wide = samples * 257 if texture.depth == 8 else samples
        wanted = {"texel": texel, "samples": samples.tolist(), "values": wide.tolist(), "generation": 1, "level": level}
        if any(found.get(key) != it for key, it in wanted.items()):
            wrong.append((texture.name, float(s), float(t), level, wrap, found, wanted))
    tests.say(not wrong, "200 values by s and t, in all levels and wraps", wrong[:2])


def facts(tests, viewer):
    found = {it["name"]: it for it in viewer.json("/api/files")["files"]}
    tests.say(set(found) == {it.name for it in (*FILES, SMOOTH, BLOCKS, ODD, BYTES, SAMPLES)} | {"text.tif", "secret.tif"}, "the files", list(found))
    it = found["deep.tif"]
    tests.say([it[key] for key in ("width", "height", "channels", "depth", "stored", "levels")] == [300, 200, 3, 16, 9, 9],
              "facts of a file", it)
    it = found["text.tif"]
    tests.say("not a TIFF" in it["reason"] and "oiiotool" in it["remedy"], "a refused file has a reason and a remedy", it)
    status, _, body = viewer.get("/tile/text.tif/0/0/0.png")
    tests.say(status == 422 and b"not a TIFF" in body, "a tile of a refused file", body)
    status, _, body = viewer.get("/tile/rgb.tif/0/0/0.png?channel=a")
    tests.say(status == 404 and b"no alpha" in body, "alpha of a file without one", body)
    status, headers, _ = viewer.get(f"/file/{ODD_ID}")
    tests.say(status == 200 and found[ODD.name]["id"] == ODD_ID, "a name with signs of addresses", (status, found[ODD.name]))
    found, _ = viewer.image("/tile/odd%FF.tif/3/0/0.png")
    tests.say((found[:30, :, :3] == BYTES.whole(0)[:, :32]).all(), "a name that is no UTF-8", found.shape)
    status, headers, body = viewer.get("/", "HEAD")
    tests.say(status == 200 and not body and int(headers["Content-Length"]) > 100, "HEAD", body)
    it = viewer.json("/api/statistics")
    tests.say(it["needs"] >= it["hits"] > 0 and it["bytes"] > 0 and len(it["tiles_of_shards"]) == 16
              and sum(it["tiles_of_shards"]) == it["tiles"], "statistics", it)


def iiif(tests, viewer):
    for texture in (FILES[0], FILES[1], FILES[4], SMOOTH):
        address = f"/iiif/{texture.name}"
        info, (width, height) = viewer.json(f"{address}/info.json"), texture.sizes[0]
        wanted = {"@context": "http://iiif.io/api/image/3/context.json", "type": "ImageService3", "profile": "level0",
                  "protocol": "http://iiif.io/api/image", "width": width, "height": height, "extraFormats": ["png"],
                  "id": f"http://{viewer.host}:{viewer.port}{address}"}
        tests.say(all(info[key] == it for key, it in wanted.items()), f"info.json of {texture.name}", info)
        wrong, count, (tile,) = [], 0, info["tiles"]
        for factor in tile["scaleFactors"]:
            side, level = tile["width"] * factor, factor.bit_length() - 1
            for x, y in [(x, y) for y in range(0, height, side) for x in range(0, width, side)]:
                w, h = min(side, width - x), min(side, height - y)
                columns, rows = -(-w // factor), -(-h // factor)
                place = f"{address}/{x},{y},{w},{h}/{columns},{rows}/0/default"
                found, _ = viewer.image(f"{place}.png")
                near, _ = viewer.image(f"{place}.jpg")
                across = [(x + Fraction((2 * it + 1) * w, 2 * columns)) / width for it in range(columns)]
                down = [(y + Fraction((2 * it + 1) * h, 2 * rows)) / height for it in range(rows)]
                right = expected(texture, level, across, down, [0, 1, 2] if texture.channels > 2 else [0])
                is_near = texture is not SMOOTH or factor > 16 or abs(near.astype(int) - right).max() <= 12
                count += 1
                # a place may be exactly between two texels, where doubles round
                if found.shape != right.shape or (found != right).mean() > 0.02 or near.shape != right.shape or not is_near:
                    wrong.append(place)
        tests.say(count and not wrong, f"{count} IIIF tiles of {texture.name}, as PNG and JPEG", wrong[:3])
        for size in info["sizes"]:
            found, _ = viewer.image(f"{address}/full/{size['width']},{size['height']}/0/default.jpg")
            if found.shape[:2] != (size["height"], size["width"]):
                wrong.append(size)
        found, _ = viewer.image(f"{address}/full/max/0/default.png")
        tests.say(not wrong and found.shape[1::-1] == (width, height) and (found == texture.narrow(texture.whole(0))).all(),
                  f"the sizes of {texture.name}, and max", (wrong, found.shape))
    for path in ("1,0,256,256/256,256/0/default.jpg", "0,0,256,256/200,200/0/default.jpg", "full/5000,5000/0/default.jpg",
                 "full/max/90/default.jpg", "full/max/0/gray.jpg", "full/max/0/default.webp", "square/max/0/default.jpg"):
        status, _, body = viewer.get(f"/iiif/rgb.tif/{path}")
        tests.say(status in (400, 404) and len(body) > 20, f"what level 0 does not have: {path}", (status, body))


def bad_paths(tests, viewer, secret):
    long = "a" * 8192
    for path in ("/file/..", "/file/../secret.txt", "/file/..%2Fsecret.txt", "/file/%2e%2e%2fsecret.txt", f"/file/{secret}",
                 f"/thumb/{str(secret).replace('/', '%2F')}", "/thumb/link.tif", "/tile/link.tif/0/0/0.png", "/value/link.tif?s=0&t=0",
                 "/iiif/link.tif/info.json", f"/file/{long}", f"/tile/{long}/0/0/0.png", f"/{long}", "/file/a%00b", "/file/%ff%fe",
                 "/static/../_server.py", "/static/..%2f_server.py", "/static/%2e%2e/_server.py", "/leaflet/../leaflet.js",
                 "/leaflet//etc/passwd", "/file/", "/file", "/api", "/api/file/..", "/tile/rgb.tif", "/tile/rgb.tif/7/0/0.png",
                 "/tile/rgb.tif/-31/0/0.png", "/tile/rgb.tif/0/0/0.gif", f"/tile/rgb.tif/0/{'9' * 400}/0.png",
                 "/tile/rgb.tif/0/99999/0.png", "/tile/rgb.tif/0/-1/0.png", "/tile/rgb.tif/0/0x1/0.png", "/tile/rgb.tif/nan/0/0.png",
                 "/value/rgb.tif?s=0&t=0&level=12", "//etc/passwd", "/file/rgb.tif/..", "/thumb/sub%2Finner.tif"):
        status, headers, body = viewer.get(path)
        tests.say(status == 404 and headers["Content-Type"].startswith("text/plain") and len(body.split()) > 3
                  and b"hidden" not in body, f"404 in words: {path[:60]}", (status, body[:200]))
    for path, wanted in (("/tile/rgb.tif/0/0/0.png?channel=9", 400), ("/tile/rgb.tif/0/0/0.png?channel=alpha", 400),
                         ("/tile/rgb.tif/0/0/0.png?channel=rgba", 400), ("/tile/rgb.tif/0/0/0.png?wrap=round", 400),
                         ("/value/rgb.tif", 400), ("/value/rgb.tif?s=nan&t=0", 400), ("/value/rgb.tif?s=1e300&t=0", 400),
                         ("/value/rgb.tif?s=x&t=0", 400), (f"/file/{'a' * 70000}", 414)):
        status, _, body = viewer.get(path)
        tests.say(status == wanted and len(body) > 10, f"{wanted} in words: {path[:60]}", (status, body[:200]))
    status, _, body = viewer.get("/", Host="evil.example")
    tests.say(status == 403 and len(body) > 20, "the name of another site", (status, body))
    status, _, body = viewer.get("/", "POST")
    tests.say(status == 501 and b"<" not in body, "POST", (status, body))
    drawn, host = random.Random("garbage"), f"Host: {viewer.host}\r\n".encode()
    for what, given in (("HTTP 0.9", b"GET /\r\n\r\n"), ("no host", b"GET / HTTP/1.0\r\n\r\n"), ("one word", b"GET\r\n\r\n"),
                        ("HTTP 3", b"GET / HTTP/3.0\r\n" + host + b"\r\n"), ("noise", drawn.randbytes(3000) + b"\r\n\r\n"),
                        ("200 headers", b"GET / HTTP/1.1\r\n" + host + b"A: b\r\n" * 200 + b"\r\n"),
                        ("a long header", b"GET / HTTP/1.1\r\n" + host + b"A: " + b"b" * 70000 + b"\r\n\r\n"),
                        ("a body", b"GET / HTTP/1.1\r\n" + host + b"Content-Length: 9\r\n\r\nGET /nope")):
        with socket.create_connection((viewer.host, viewer.port), timeout=30) as it:
            it.sendall(given)
            it.shutdown(socket.SHUT_WR)
            found = b""
            try:
                while part := it.recv(65536):
                    found += part
            except ConnectionResetError:
                # it did not read all that was sent
                pass
        tests.say(found and (what == "a body") == found.startswith(b"HTTP/1.1 200") and found.count(b"HTTP/1.1") <= 1,
                  f"a request with {what}", found[:300])
    # a plain file that became a link out of the folder
    os.symlink(secret, viewer_link := tests.folder / "new-link")
    os.replace(viewer_link, tests.folder / "secret.tif")
    status, _, body = viewer.get("/thumb/secret.tif")
    tests.say(status == 404 and b"any more" in body, "a file that became a link", (status, body))


class Listener(threading.Thread):
    """A page that listens: the events of files, each with its time."""

    def __init__(self, viewer):
        super().__init__(daemon=True)
        self.found, self.counts = [], 0
        self.socket = socket.create_connection((viewer.host, viewer.port), timeout=60)
        self.socket.sendall(f"GET /events HTTP/1.1\r\nHost: {viewer.host}\r\n\r\n".encode())
        self.start()

    def run(self):
        kind = None
        try:
            for line in self.socket.makefile("rb"):
                if line.startswith(b"event: "):
                    kind = line[7:].strip()
                elif line.startswith(b"data: ") and kind == b"file":
                    self.found.append((time.monotonic(), json.loads(line[6:])))
                elif line.startswith(b"data: ") and kind == b"statistics":
                    self.counts += 1
        except OSError:
            pass


def replaced(tests):
    """A file is replaced again and again while many clients read its tiles. Version n has the colour n."""
    folder = tests.folder
    Plain("now.tif", 512, 512, 3, 8, 64, seed=1).write(folder)
    with tests.viewer("--budget", "64") as viewer:
        stop, mixed, seen, errors = threading.Event(), [], {}, []

        def reads(name):
            drawn = random.Random(name)
            while not stop.is_set():
                z = drawn.choice([0, 0, -1])
                side = 2 if z == 0 else 1
                try:
                    found, generation = viewer.image(f"/tile/now.tif/{z}/{drawn.randrange(side)}/{drawn.randrange(side)}.png")
                except (OSError, ValueError) as error:
                    errors.append(error)
                    continue
                colours = set(found.reshape(-1, found.shape[2])[:, 0].tolist())
                seen.setdefault(generation, set()).update(colours)
                if len(colours) != 1:
                    mixed.append((generation, colours))

        viewer.image("/tile/now.tif/0/0/0.png")
        threads, listener = [threading.Thread(target=reads, args=(it,)) for it in range(16)], Listener(viewer)
        for it in threads:
            it.start()
        late = []
        for version in range(2, 12):
            replace(folder, Plain("now.tif", 512, 512, 3, 8, 64, seed=version))
            began = time.monotonic()
            wait = until(lambda: any(at >= began - 0.5 and it["generation"] == version for at, it in listener.found), 5)
            late.append(wait)
            time.sleep(0.2)
        stop.set()
        for it in threads:
            it.join()
        tests.say(all(it is not None and it < 2 for it in late), f"a page hears of a replaced file in {max(it or 99 for it in late):.1f} s", late)
        tests.say(not mixed and not errors, "no tile has texels of two versions, and no request fails", (mixed[:3], errors[:3]))
        tests.say(len(seen) > 5 and all(it == {generation} for generation, it in seen.items()),
                  "a tile's generation is that of its texels", seen)
        tests.say(listener.counts > 3, "counts each second", listener.counts)
        same_stamp(tests, viewer, listener)
        listener.socket.shutdown(socket.SHUT_RDWR)


def same_stamp(tests, viewer, listener):
    """A file of the same size and time: only its number in the file system differs."""
    before, beside, wrong = os.stat(tests.folder / "now.tif"), tests.room / "beside", []
    for colour in (77, 78, 79, 80):
        Plain("now.tif", 512, 512, 3, 8, 64, seed=colour).write(beside)
        os.utime(beside / "now.tif", ns=(before.st_atime_ns, before.st_mtime_ns))
        count = len(listener.found)
        os.replace(beside / "now.tif", tests.folder / "now.tif")
        wait = until(lambda: len(listener.found) > count, 5)
        found = numpy.concatenate([viewer.image(f"/tile/now.tif/0/{it % 2}/{it // 2}.png")[0] for it in range(4)])
        if wait is None or wait > 2 or not (found == colour).all():
            wrong.append((colour, wait, set(found.ravel().tolist())))
    tests.say(not wrong, "a new file with the size and time of the old one, four times", wrong)


def slow_clients(tests):
    """Clients that send half a request, do not read, or go away. The others are answered all the same."""
    viewer, sockets = Viewer(tests.folder), []
    for number in range(120):
        it = socket.socket()
        it.setsockopt(socket.SOL_SOCKET, socket.SO_RCVBUF, 2048)
        it.connect((viewer.host, viewer.port))
        it.sendall(b"GET /tile/rgb.tif/0/0/0.png HT" if number % 3 == 0 else
                   f"GET /tile/rgb.tif/0/0/0.png HTTP/1.1\r\nHost: {viewer.host}\r\n\r\n".encode() * 6)
        if number % 3 == 2:
            it.setsockopt(socket.SOL_SOCKET, socket.SO_LINGER, struct.pack("ii", 1, 0))
            it.close()
        sockets.append(it)
    slowest = 0.0
    for _ in range(30):
        began = time.monotonic()
        is_right = tile_is_right(viewer, FILES[0], 0, 1, 0)
        slowest = max(slowest, time.monotonic() - began)
        if not is_right:
            break
    tests.say(is_right and slowest < 10, f"120 slow or aborted clients: a tile takes {slowest:.2f} s at most", slowest)
    began = time.monotonic()
    status, text = viewer.end()
    took = time.monotonic() - began
    tests.say(status == 0 and "ended" in text and "Traceback" not in text and took < 15, f"Ctrl-C ends it in {took:.1f} s, with 80 clients left", (status, text))
    for it in sockets:
        it.close()


def command(tests):
    """The command line: mistakes in words, SIGTERM, a port that is taken, and what is not installed."""
    def ran(*words):
        found = subprocess.run([sys.executable, "-m", "texcache.viewer", *map(str, words)], capture_output=True, text=True,
                               timeout=60, check=False)
        return found.returncode, found.stdout + found.stderr

    for what, words, wanted in (("a folder that does not exist", ["/nonexistent/x"], (1, "/nonexistent/x")),
                                ("no Leaflet", [tests.folder, "--leaflet", tests.room], (1, "libjs-leaflet")),
                                ("a bad port", [tests.folder, "--port", "70000"], (2, "0 to 65535")),
                                ("a bad budget", [tests.folder, "--budget", "5000"], (2, "0 to 4095")),
                                ("help", ["--help"], (0, "--budget MB"))):
        status, text = ran(*words)
        tests.say(status == wanted[0] and wanted[1] in text and "Traceback" not in text, f"the command with {what}", (status, text))
    with tests.viewer() as viewer:
        status, text = ran(tests.folder, "--port", viewer.port)
        tests.say(status == 1 and "cannot be used" in text, "a port that is taken", (status, text))
        tests.say(viewer.host == "127.0.0.1", "it is for this machine alone", viewer.line)
        status, text = viewer.end(signal.SIGTERM)
        tests.say(status == 0 and "ended" in text, "SIGTERM", (status, text))


def run(tests):
    folder = tests.folder
    for it in (*FILES, SMOOTH, BLOCKS, ODD, BYTES, SAMPLES):
        it.write(folder)
    FILES[3].__class__("secret.tif", 32, 32, 1, 8, 16).write(folder)
    (folder / "text.tif").write_text("this is no image")
    secret = tests.room / "secret.txt"
    secret.write_text("hidden")
    SMOOTH.write(tests.room)
    os.symlink(tests.room / "smooth.tif", folder / "link.tif")
    (folder / "sub").mkdir()
    FILES[3].__class__("inner.tif", 32, 32, 1, 8, 16).write(folder / "sub")
    with tests.viewer() as viewer:
        for step in (facts_after_use, tiles, values, facts, iiif, samples):
            step(tests, viewer)
        bad_paths(tests, viewer, secret)
        tests.say(viewer.get("/thumb/rgb.tif")[0] == 200, "it still answers")
        status, text = viewer.end()
        tests.say(status == 0 and "fault" not in text and "failed" not in text, "no fault was printed", text)
    for step in (replaced, slow_clients, command):
        step(tests)


def facts_after_use(tests, viewer):
    """The pages and what they load."""
    for path, kind in (("/", "text/html"), ("/file/rgb.tif", "text/html"), ("/static/file.js", "text/javascript"),
                       ("/leaflet/leaflet.js", "text/javascript"), ("/leaflet/leaflet.css", "text/css")):
        status, headers, body = viewer.get(path)
        outside = [it for it in body.split(b'"') if it.startswith((b"http:", b"https:", b"//"))] if kind == "text/html" else []
        tests.say(status == 200 and headers["Content-Type"].startswith(kind) and not outside and headers["Content-Security-Policy"],
                  f"{path}, and nothing from outside", (status, outside))
    found = pixels(viewer.get("/tile/smooth.tif/0/0/0.jpg")[2])
    tests.say(abs(found.astype(int) - SMOOTH.samples(0, 0, 0, 256, 256)).max() <= 12, "a tile as JPEG", found[0, 0])
