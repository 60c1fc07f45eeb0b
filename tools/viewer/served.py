"""Textures by formula, and a viewer that serves them: what all tests of the viewer use."""
import contextlib
import http.client
import io
import json
import os
import signal
import subprocess
import sys
import time
from urllib.parse import urlsplit

import numpy
from PIL import Image

from texcheck.fine import Picture


class Formula(Picture):
    """A texture whose samples are a formula of level, column, row and channel."""

    def __init__(self, name, width, height, channels, depth, tile, levels=None, seed=0):
        super().__init__(name, width, height, channels, depth, tile)
        self.seed, self.sizes = seed, self.sizes[:levels]

    def samples(self, level, x, y, w, h):
        """The samples of a region."""
        i, j, c = numpy.arange(x, x + w)[None, :, None], numpy.arange(y, y + h)[:, None, None], numpy.arange(self.channels)
        return (self.seed + 7 * i + 2 * i * c + 13 * j * (c + 1) + i * j // 64 + 101 * level + 59 * c) % 2 ** self.depth

    def bytes_of(self, level, x, y):
        found = self.samples(level, x * self.tile, y * self.tile, self.tile, self.tile)
        # Picture.write removes what is kept of a tile
        found = self.kept[level, x, y] = found.astype("u1" if self.depth == 8 else "<u2").tobytes()
        return found

    def whole(self, level):
        return self.samples(level, 0, 0, *self.sizes[level])

    def narrow(self, samples):
        """The samples as the viewer shows them, with 8 bits."""
        return (samples if self.depth == 8 else (samples + 128) // 257).astype(numpy.uint8)


class Smooth(Formula):
    """A smooth texture, which JPEG keeps nearly as it is."""

    def samples(self, level, x, y, w, h):
        i, j, c = numpy.arange(x, x + w)[None, :, None], numpy.arange(y, y + h)[:, None, None], numpy.arange(self.channels)
        return (40 + (i + j * (c + 1)) * 2 ** level // 16) % 256


class Blocks(Formula):
    """A texture of blocks of 2 by 2 equal texels. So its first generated level has the samples of the blocks."""

    def samples(self, level, x, y, w, h):
        i, j, c = numpy.arange(x, x + w)[None, :, None] // 2, numpy.arange(y, y + h)[:, None, None] // 2, numpy.arange(self.channels)
        return (5 * i + 11 * j + 70 * c) % 256


class Plain(Formula):
    """A texture of one colour in all levels."""

    def samples(self, level, x, y, w, h):
        return numpy.full((h, w, self.channels), self.seed)


class Viewer:
    """A running viewer."""

    def __init__(self, folder, *options):
        self.process = subprocess.Popen([sys.executable, "-m", "texcache.viewer", str(folder), "--port", "0", *options],
                                        stdout=subprocess.PIPE, stderr=subprocess.STDOUT, text=True)
        self.line = self.process.stdout.readline()
        found = urlsplit(next((it for it in self.line.split() if it.startswith("http://")), ""))
        self.host, self.port = found.hostname, found.port

    def get(self, path, method="GET", **headers):
        """Status, headers and body."""
        connection = http.client.HTTPConnection(self.host, self.port, timeout=120)
        try:
            connection.request(method, path, headers=headers)
            reply = connection.getresponse()
            return reply.status, reply.headers, reply.read()
        finally:
            connection.close()

    def json(self, path):
        return json.loads(self.get(path)[2])

    def image(self, path):
        """The pixels of an image, and its generation."""
        status, headers, body = self.get(path)
        if status != 200:
            raise ValueError(f"{path}: {status} {body[:300]!r}")
        return pixels(body), int(headers["X-Texcache-Generation"])

    def memory(self):
        """The most memory that it had, in bytes."""
        with open(f"/proc/{self.process.pid}/status", encoding="ascii") as file:
            return next(1024 * int(it.split()[1]) for it in file if it.startswith("VmHWM"))

    def end(self, number=signal.SIGINT):
        """Ends it as Ctrl-C does. Returns its status and what it printed."""
        with contextlib.suppress(ProcessLookupError):
            self.process.send_signal(number)
        try:
            return self.process.wait(30), self.line + self.process.stdout.read()
        except subprocess.TimeoutExpired:
            self.process.kill()
            return self.process.wait(), "it did not end in 30 seconds"


def pixels(body):
    found = numpy.asarray(Image.open(io.BytesIO(body)))
    return found[:, :, None] if found.ndim == 2 else found


def replace(folder, texture):
    """Puts another version in place of a file, as the documents say: written beside it, then renamed."""
    beside = folder.parent / "beside"
    beside.mkdir(exist_ok=True)
    texture.write(beside)
    os.replace(beside / texture.name, folder / texture.name)


class Tests:
    """How many tests passed and failed."""

    def __init__(self, room, screenshots):
        self.room, self.screenshots, self.passed, self.failed = room, screenshots, 0, 0
        self.folder = room / "textures"
        self.folder.mkdir()

    def say(self, is_so, what, more=""):
        self.passed += bool(is_so)
        self.failed += not is_so
        print(f"{'passed' if is_so else 'failed'}: {what}{'' if is_so else ': ' + str(more)[-2000:]}", flush=True)
        return is_so

    @contextlib.contextmanager
    def viewer(self, *options):
        found = Viewer(self.folder, *options)
        try:
            yield found
        finally:
            found.end()


def until(is_so, seconds):
    """Waits until something is so. Returns how long that took, or None."""
    began = time.monotonic()
    while time.monotonic() - began < seconds:
        if is_so():
            return time.monotonic() - began
        time.sleep(0.02)
    return None
