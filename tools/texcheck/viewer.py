"""Tests the viewer, python3 -m texcache.viewer: what it answers over HTTP, 200 clients at once, and its pages in a browser.

Tiles, thumbnails, values and IIIF tiles are compared with formulas. Bad paths, slow and aborted clients, and files that
are replaced while tiles are read must cost nothing else. The load test takes a texture of 540 MB and a budget of 64 MB.
The pages run in headless Chromium by its webdriver. With --screenshots the pictures of examples/viewer are written.
"""
import os
import shutil
import tempfile
from pathlib import Path

from texcheck.archive import archive_of
from texcheck.common import TOP, Skips, debian_python, lacking_module, said
from texcheck.tree import shared

HELP = "the viewer: answers over HTTP, many clients, and its pages in a browser"
SCRIPT = TOP / "tools" / "viewer" / "run.py"
LEAFLET = Path("/usr/share/javascript/leaflet/leaflet.js")


def add_arguments(parser):
    parser.add_argument("--library", type=Path, metavar="FILE",
                        help="the library; else the proved one if it is up to date, or an unproved build")
    parser.add_argument("--screenshots", action="store_true", help="write the pictures of examples/viewer")
    Skips.add_argument(parser)


def lacking_browser():
    """What the tests in a browser need and is not installed; why Chromium does not run here."""
    missing = next((it for it in ("chromium", "chromedriver") if not shutil.which(it)), None)
    if missing:
        return missing
    with tempfile.TemporaryDirectory() as room:
        status, text = said(["chromium", "--headless=new", "--no-sandbox", "--disable-gpu", f"--user-data-dir={room}", "--dump-dom",
                             "data:text/html,<p>it runs"], seconds=120)
    return None if status == 0 and "it runs" in text else "a chromium that runs"


def run(args):
    skips = Skips(args)
    lacking = lacking_module("numpy", "PIL") or (None if LEAFLET.is_file() else "libjs-leaflet")
    if skips.lacks(lacking, "viewer"):
        return 1 if skips.failed else 0
    failed = 0
    with tempfile.TemporaryDirectory() as room:
        library = Path(room) / "libtexcache.so"
        shared(archive_of(args.library), library)
        env = {it: value for it, value in os.environ.items() if not it.startswith(("PYTHON", "TEXCACHE"))}
        env |= {"PYTHONPATH": str(TOP / "python"), "TEXCACHE_LIBRARY": str(library), "PYTHONDONTWRITEBYTECODE": "1"}
        for which in ("answers", "load", "browser"):
            if which == "browser" and skips.lacks(lacking_browser(), "the viewer in a browser"):
                continue
            more = ["--screenshots", TOP / "examples" / "viewer"] if args.screenshots and which == "browser" else []
            status, text = said([debian_python(), SCRIPT, which, *more], seconds=1200, env=env)
            print(text, end="", flush=True)
            failed += status != 0
    print(f"viewer: {'all is as it should be' if not failed else 'something failed'}")
    return 1 if failed or skips.failed else 0
