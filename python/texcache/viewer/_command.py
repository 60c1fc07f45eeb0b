"""The command line of the viewer: reads the arguments, serves until Ctrl-C, and then ends."""
from __future__ import annotations

import argparse
import signal
import sys
import threading
from pathlib import Path
from typing import Any, List, Optional

LACKING = "viewer: {} is not installed. Debian has it in the package {}: apt-get install {}"


def _arguments(words: Optional[List[str]]) -> argparse.Namespace:
    parser = argparse.ArgumentParser(prog="python3 -m texcache.viewer", allow_abbrev=False,
                                     description="Serves a web page that shows the textures of a folder, until Ctrl-C.")
    parser.add_argument("folder", metavar="FOLDER", help="the folder of the textures")
    parser.add_argument("--port", type=int, default=8080, metavar="N", help="the port, 8080 if it is not given; 0: any free one")
    parser.add_argument("--host", default="127.0.0.1", metavar="H",
                        help="the address, 127.0.0.1 if it is not given: only this machine sees the page")
    parser.add_argument("--budget", type=int, default=256, metavar="MB", help="megabytes for tiles, 0 to 4095; usually 256")
    parser.add_argument("--leaflet", type=Path, default=Path("/usr/share/javascript/leaflet"), metavar="DIR",
                        help="where Leaflet is installed, if it is not Debian's package")
    found = parser.parse_args(words)
    if not 0 <= found.port <= 65535:
        parser.error(f"--port is {found.port}, and may be 0 to 65535")
    if not 0 <= found.budget <= 4095:
        parser.error(f"--budget is {found.budget}, and may be 0 to 4095")
    return found


def _lacking(leaflet: Path) -> Optional[str]:
    """What is not installed, in words."""
    for module, package in (("numpy", "python3-numpy"), ("PIL", "python3-pil")):
        try:
            __import__(module)
        except ImportError:
            return LACKING.format(f"Python's {module}", package, package)
    if not (leaflet / "leaflet.js").is_file() or not (leaflet / "leaflet.css").is_file():
        return LACKING.format(f"Leaflet (no leaflet.js in {leaflet})", *["libjs-leaflet"] * 2)
    return None


def main(words: Optional[List[str]] = None) -> int:
    args = _arguments(words)
    lacking = _lacking(args.leaflet)
    if lacking:
        print(lacking, file=sys.stderr)
        return 1
    from .. import Refused
    from ._folder import Folder
    from ._server import Server
    try:
        folder = Folder(args.folder, args.budget << 20)
    except Refused as refused:
        print(f"viewer: {refused}", file=sys.stderr)
        return 1
    try:
        server = Server((args.host, args.port), folder, args.leaflet)
    except OSError as error:
        folder.close()
        print(f"viewer: port {args.port} of {args.host} cannot be used: {error.strerror or error}", file=sys.stderr)
        return 1

    def ends(*_: Any) -> None:
        # shutdown waits for the loop, which this thread runs
        threading.Thread(target=server.shutdown, daemon=True).start()

    signal.signal(signal.SIGINT, ends)
    signal.signal(signal.SIGTERM, ends)
    print(f"viewer: {len(folder.names)} files of {args.folder} at {server.address()} (Ctrl-C ends it)", flush=True)
    try:
        server.serve_forever(poll_interval=0.2)
    finally:
        server.server_close()
        is_closed = folder.close()
    print("viewer: ended" if is_closed else "viewer: ended; a lookup was still running", flush=True)
    return 0
