"""The viewer's web server: which path gives which answer, the limits of requests, and events for pages.

Each connection has a thread of its own, and at most CONNECTIONS are open. A client that is slow, silent or gone costs its
thread until TIMEOUT, and nothing else. Names in paths are compared with the list of the folder, and never opened.
"""
from __future__ import annotations

import ipaddress
import json
import os
import re
import socket
import socketserver
import sys
import threading
from http.server import BaseHTTPRequestHandler, ThreadingHTTPServer
from pathlib import Path
from typing import Any, Callable, Dict, List, Optional, Tuple
from urllib.parse import parse_qs, unquote_to_bytes

import numpy

from .. import Info, Refused, version
from . import _iiif as iiif
from ._folder import BAD_FILE, TILE_TOO_LARGE, WRAPS, Absent, Busy, Folder, folded, level_size
from ._images import TYPES, encoded

SIDE = 256
DEEPEST = 6          # at this zoom a texel has 64 by 64 pixels
CONNECTIONS = 512
LISTENERS = 64       # pages that get events
TIMEOUT = 20.0       # seconds without a byte from or to a client
THUMBNAILS = 4       # of the passes, so many may make thumbnails
IMAGES_AROUND = 8    # how far wrapped tiles go, in images
STATIC = Path(__file__).resolve().parent / "static"
KINDS = {".html": "text/html; charset=utf-8", ".js": "text/javascript; charset=utf-8", ".css": "text/css; charset=utf-8",
         ".png": "image/png"}
PAGES = {"overview": "overview.html", "file": "file.html"}
WHOLE = re.compile(r"-?\d{1,9}\Z")
CHANNEL = re.compile(r"(rgb|a|[0-7])\Z")
HOST = re.compile(r"[\w.\-]+(:\d+)?\Z|\[[0-9a-fA-F:.]+\](:\d+)?\Z")
POLICY = "default-src 'self'; img-src 'self' data: blob:; frame-ancestors 'none'"
LOCAL = {"localhost", "127.0.0.1", "[::1]"}


class Failed(Exception):
    """A request that fails, with its status and a sentence."""

    def __init__(self, status: int, text: str) -> None:
        super().__init__(text)
        self.status = status


class Reply:
    """The body of an answer, its type, and headers of its own."""

    def __init__(self, body: bytes, kind: str, **headers: Any) -> None:
        self.body, self.kind, self.headers = body, kind, headers


def _json(facts: Any, kind: str = "application/json") -> Reply:
    return Reply(json.dumps(facts).encode(), kind)


def _number(text: str, what: str, low: int, high: int) -> int:
    if not WHOLE.match(text) or not low <= int(text) <= high:
        raise Failed(404, f"{what} is {text[:40]}, and may be {low} to {high}")
    return int(text)


def _fraction(query: Dict[str, List[str]], name: str) -> float:
    try:
        found = float(query[name][0])
    except (KeyError, ValueError):
        raise Failed(400, f"{name} has to be a number") from None
    if not -IMAGES_AROUND <= found <= IMAGES_AROUND:
        raise Failed(400, f"{name} may be {-IMAGES_AROUND} to {IMAGES_AROUND}")
    return found


def _one(query: Dict[str, List[str]], name: str, usual: str, allowed: Callable[[str], Any]) -> str:
    found = query.get(name, [usual])[0]
    if not allowed(found):
        raise Failed(400, f"{name} cannot be {found[:40]!r}")
    return found


class Handler(BaseHTTPRequestHandler):
    """One connection."""

    protocol_version, timeout, disable_nagle_algorithm = "HTTP/1.1", TIMEOUT, True
    server: "Server"

    def version_string(self) -> str:
        return "texcache-viewer"

    def log_message(self, *_: Any) -> None:
        """Requests are not logged."""

    def send_error(self, code: int, message: Optional[str] = None, explain: Optional[str] = None) -> None:
        """Errors that http.server finds, as a sentence."""
        self.close_connection = True
        self._send(int(code), Reply(f"{message or 'this request cannot be answered'}\n".encode(), "text/plain; charset=utf-8"))

    def _send(self, status: int, reply: Reply) -> None:
        self.send_response(status)
        for name, value in {"Content-Type": reply.kind, "Content-Length": len(reply.body), "Cache-Control": "no-store",
                            "X-Content-Type-Options": "nosniff", "Content-Security-Policy": POLICY,
                            **reply.headers}.items():
            self.send_header(name.replace("_", "-"), str(value))
        if self.close_connection:
            self.send_header("Connection", "close")
        # a request of HTTP 0.9 gets no header
        lines, self._headers_buffer = getattr(self, "_headers_buffer", []), []
        head = b"".join([*lines, b"\r\n"]) if lines else b""
        # in one piece: a header alone would be a packet of its own
        self.wfile.write(head if self.command == "HEAD" else head + reply.body)

    def handle(self) -> None:
        try:
            super().handle()
        except OSError:
            # the client is gone, or too slow
            self.close_connection = True

    def do_GET(self) -> None:
        if self.headers.get("Content-Length") or self.headers.get("Transfer-Encoding"):
            # a body is not read, so the next request could not be found
            self.close_connection = True
        path, _, query = self.path.partition("?")
        try:
            if not self.server.is_known_host(self.headers.get("Host", "")):
                raise Failed(403, "this viewer answers only under the names of this machine")
            if path == "/events":
                self._events()
                return
            status, reply = 200, self._reply(path, parse_qs(query[:2048]))
        except Failed as failed:
            status, reply = failed.status, self._words(str(failed))
        except Absent as absent:
            status, reply = 404, self._words(str(absent))
        except Busy as busy:
            status, reply = 503, self._words(str(busy))
        except Refused as refused:
            status = 422 if refused.status in (BAD_FILE, TILE_TOO_LARGE) else 503
            reply = self._words(str(refused))
        except (ArithmeticError, AttributeError, LookupError, TypeError, ValueError, MemoryError) as error:
            print(f"viewer: a request failed: {type(error).__name__}: {error}", file=sys.stderr, flush=True)
            status, reply = 500, self._words("the viewer has a fault: its terminal says which")
        self._send(status, reply)

    do_HEAD = do_GET

    @staticmethod
    def _words(text: str) -> Reply:
        return Reply(f"{text}\n".encode(errors="replace"), "text/plain; charset=utf-8")

    def _reply(self, path: str, query: Dict[str, List[str]]) -> Reply:
        parts = path.split("/")[1:]
        if parts == [""]:
            return self.server.file_of("static", PAGES["overview"])
        kind, rest = parts[0], parts[1:]
        found = {"static": self._static, "leaflet": self._static, "file": self._page, "api": self._api, "thumb": self._thumb,
                 "tile": self._tile, "value": self._value, "iiif": self._iiif}.get(kind)
        if not found:
            raise Failed(404, "there is no such page")
        return found(kind, rest, query)

    def _file(self, text: str) -> int:
        """The number of the file that a part of a path names."""
        number = self.server.folder.numbers.get(unquote_to_bytes(text)) if len(text) <= 1024 else None
        if number is None:
            raise Failed(404, "the folder had no plain file of this name when the viewer began")
        if not self.server.folder.is_plain(number):
            raise Failed(404, "the folder has no plain file of this name any more")
        return number

    def _parts(self, rest: List[str], count: int) -> List[str]:
        if len(rest) != count:
            raise Failed(404, "there is no such page")
        return rest

    # ---- pages

    def _static(self, kind: str, rest: List[str], _query: Any) -> Reply:
        return self.server.file_of(kind, "/".join(rest))

    def _page(self, _kind: str, rest: List[str], _query: Any) -> Reply:
        self._file(*self._parts(rest, 1))
        return self.server.file_of("static", PAGES["file"])

    def _api(self, _kind: str, rest: List[str], _query: Any) -> Reply:
        folder = self.server.folder
        if rest == ["files"]:
            with folder.lent() as textures:
                files = [folder.facts(textures, it) for it in range(len(folder.names))]
            return _json({"folder": os.path.basename(os.path.abspath(folder.path)), "budget": folder.budget,
                          "version": version(), "files": files})
        if rest == ["statistics"]:
            with folder.lent() as textures:
                return _json(folder.statistics(textures))
        what, name = self._parts(rest, 2)
        if what != "file":
            raise Failed(404, "there is no such page")
        number = self._file(name)
        with folder.lent() as textures:
            return _json(folder.facts(textures, number))

    # ---- images

    def _thumb(self, _kind: str, rest: List[str], _query: Any) -> Reply:
        number, folder = self._file(*self._parts(rest, 1)), self.server.folder
        # levels that have to be generated take long: tiles go first
        with self.server.thumbnails, folder.lent() as textures:
            found = folder.thumbnail(textures, number)
            body = encoded(found.values, "rgb", "png")
        return Reply(body, TYPES["png"], X_Texcache_Generation=found.generation)

    def _tile(self, _kind: str, rest: List[str], query: Dict[str, List[str]]) -> Reply:
        name, zoom, column, row = self._parts(rest, 4)
        number, folder = self._file(name), self.server.folder
        row, dot, kind = row.partition(".")
        if kind not in TYPES:
            raise Failed(404, "a tile ends in .png or .jpg")
        z = _number(zoom, "the zoom", -31, DEEPEST)
        x, y = (_number(it, what, -10 ** 8, 10 ** 8) for it, what in ((column, "x"), (row, "y")))
        channel = _one(query, "channel", "rgb", CHANNEL.match)
        wrap = _one(query, "wrap", "none", lambda it: it == "none" or it in WRAPS)
        level, side, inside = max(0, -z), SIDE >> max(0, z), (0, 0)

        def places(info: Info) -> Tuple[Any, Any]:
            nonlocal inside
            across, down = ((it * side + numpy.arange(side) + 0.5) * (1 << level) / size
                            for it, size in ((x, info.width), (y, info.height)))
            low, high = (0, 1) if wrap == "none" else (-IMAGES_AROUND, IMAGES_AROUND)
            inside = int((across < low).sum()), int((down < low).sum())
            across, down = (it[(it >= low) & (it < high)] for it in (across, down))
            if not len(across) or not len(down):
                raise Absent("this tile lies outside the image")
            return across, down

        with folder.lent() as textures:
            found = folder.texels(textures, number, level, places, None if wrap == "none" else wrap)
            body = encoded(found.values, channel, kind, (side, side, *inside) if kind == "png" else None)
        return Reply(body, TYPES[kind], X_Texcache_Generation=found.generation)

    def _value(self, _kind: str, rest: List[str], query: Dict[str, List[str]]) -> Reply:
        number, folder = self._file(*self._parts(rest, 1)), self.server.folder
        s, t = _fraction(query, "s"), _fraction(query, "t")
        level = _number(query.get("level", ["0"])[0], "the level", 0, 31)
        wrap = _one(query, "wrap", "clamp", WRAPS.__contains__)
        inside = [float(folded(numpy.float64(it), wrap)) for it in (s, t)]
        with folder.lent() as textures:
            found = folder.texels(textures, number, level, lambda _: tuple(numpy.array([it]) for it in inside),
                                  "black" if wrap == "black" else None)
        sizes = level_size(found.info, level)
        texel = [min(max(int(numpy.floor(it * n)), 0), n - 1) for it, n in zip(inside, sizes)]
        is_outside = wrap == "black" and not all(0 <= it < 1 for it in inside)
        values = found.values[0, 0].tolist()
        return _json({"s": s, "t": t, "level": level, "size": sizes, "texel": None if is_outside else texel, "values": values,
                      "samples": [it // 257 for it in values] if found.info.depth == 8 else values,
                      "depth": found.info.depth, "generation": found.generation})

    # ---- IIIF

    def _iiif(self, _kind: str, rest: List[str], _query: Any) -> Reply:
        number, folder = self._file(rest[0] if rest else ""), self.server.folder
        host = self.headers.get("Host", "")
        if rest[1:] == ["info.json"]:
            with folder.lent() as textures:
                return _json(iiif.facts(textures.info(number), f"http://{host}/iiif/{rest[0]}"), iiif.TYPE)
        _, region, size, rotation, last = self._parts(rest, 5)
        quality, _, kind = last.partition(".")
        region, size = (unquote_to_bytes(it).decode("ascii", "replace") for it in (region, size))
        if rotation != "0" or quality != "default" or kind not in TYPES:
            raise Failed(400, "level 0 has the rotation 0, the quality default, and the formats jpg and png")
        with folder.lent() as textures:
            if region == "full":
                found = folder.scaled(textures, number, lambda info: self._whole(info, size))
            else:
                wanted = iiif.tile(textures.info(number), region, size)
                found = folder.texels(textures, number, wanted.level, lambda info: self._places(info, region, size))
            body = encoded(found.values, "rgb", kind)
        return Reply(body, TYPES[kind], X_Texcache_Generation=found.generation)

    @staticmethod
    def _whole(info: Info, size: str) -> Tuple[int, int, float]:
        columns, rows = iiif.whole(info, size)
        return columns, rows, max(0.0, float(numpy.log2(max(info.width / columns, info.height / rows))))

    @staticmethod
    def _places(info: Info, region: str, size: str) -> Tuple[Any, Any]:
        it = iiif.tile(info, region, size)
        return ((it.x + (numpy.arange(it.columns) + 0.5) * it.w / it.columns) / info.width,
                (it.y + (numpy.arange(it.rows) + 0.5) * it.h / it.rows) / info.height)

    # ---- events

    def _events(self) -> None:
        """Tells a page of replaced files and of counts, for as long as it listens."""
        events = self.server.folder.events
        with events.changed:
            if events.listeners >= LISTENERS:
                raise Failed(503, f"{LISTENERS} pages get events already")
            events.listeners += 1
            number = events.number
        try:
            self.close_connection = True
            self.wfile.write(b"HTTP/1.1 200 OK\r\nContent-Type: text/event-stream\r\nCache-Control: no-store\r\n"
                             b"Connection: close\r\n\r\nretry: 1000\nevent: hello\ndata: {}\n\n")
            while not events.is_closed and self.command == "GET":
                number, found, is_lost = events.after(number, 5)
                # a comment shows whether the page is still there; after a hello it asks for all facts again
                lines = (b"event: hello\ndata: {}\n\n" if is_lost else b"") + b"".join(found)
                self.wfile.write(lines or b": still here\n\n")
        finally:
            with events.changed:
                events.listeners -= 1


class Server(ThreadingHTTPServer):
    """Serves a folder."""

    daemon_threads, request_queue_size = True, 512

    def __init__(self, address: Tuple[str, int], folder: Folder, leaflet: Path) -> None:
        if ":" in address[0]:
            self.address_family = socket.AF_INET6
        self.folder, self.room = folder, threading.BoundedSemaphore(CONNECTIONS)
        self.thumbnails = threading.BoundedSemaphore(THUMBNAILS)
        # the few files that pages load, by their names: no path of a request is ever opened
        self.files = {("static", it.name): it for it in STATIC.iterdir() if it.suffix in KINDS}
        self.files |= {("leaflet", it.relative_to(leaflet).as_posix()): it for it in
                       (leaflet / "leaflet.js", leaflet / "leaflet.css", *(leaflet / "images").glob("*.png"))}
        super().__init__(address, Handler)
        self.is_local = address[0] == "localhost" or _is_loopback(address[0])

    def server_bind(self) -> None:
        # http.server would ask for the name of this machine, which can take long
        socketserver.TCPServer.server_bind(self)
        self.server_name, self.server_port = self.server_address[:2]  # type: ignore[assignment]

    def address(self) -> str:
        host, port = self.server_address[:2]
        return f"http://{f'[{host}]' if ':' in str(host) else host}:{port}/"

    def is_known_host(self, host: str) -> bool:
        """Whether a request may name this host. A page of another site that lets its own name lead here may not."""
        return bool(HOST.match(host)) and (not self.is_local or re.sub(r":\d+\Z", "", host) in LOCAL
                                           or _is_loopback(re.sub(r":\d+\Z", "", host)))

    def file_of(self, kind: str, name: str) -> Reply:
        place = self.files.get((kind, name))
        if place is None:
            raise Failed(404, "there is no such page")
        return Reply(place.read_bytes(), KINDS[place.suffix])

    def process_request(self, request: Any, client_address: Any) -> None:
        if not self.room.acquire(blocking=False):
            try:
                request.settimeout(1)
                request.sendall(b"HTTP/1.1 503 Busy\r\nConnection: close\r\nContent-Length: 26\r\n\r\n"
                                b"too many open connections\n")
            except OSError:
                pass
            self.shutdown_request(request)
            return
        try:
            super().process_request(request, client_address)
        except RuntimeError:
            # no thread can be started
            self.room.release()
            self.shutdown_request(request)

    def process_request_thread(self, request: Any, client_address: Any) -> None:
        try:
            super().process_request_thread(request, client_address)
        finally:
            self.room.release()

    def handle_error(self, request: Any, client_address: Any) -> None:
        """A fault of the viewer itself: one line, and the viewer goes on."""
        error = sys.exc_info()[1]
        if not isinstance(error, OSError):
            print(f"viewer: a request failed: {type(error).__name__}: {error}", file=sys.stderr, flush=True)


def _is_loopback(host: str) -> bool:
    try:
        return ipaddress.ip_address(host.strip("[]")).is_loopback
    except ValueError:
        return False
