#!/usr/bin/env python3
"""Tests the viewer over HTTP and in a browser: answers, load or browser. `tools/check viewer` runs all of them; they need
Debian's Python with numpy and Pillow, the package texcache on PYTHONPATH, and TEXCACHE_LIBRARY."""
import argparse
import importlib
import sys
import tempfile
from pathlib import Path

sys.path.insert(0, str(Path(__file__).resolve().parents[1]))


def main():
    parser = argparse.ArgumentParser(description=__doc__, allow_abbrev=False,
                                     formatter_class=argparse.RawDescriptionHelpFormatter)
    parser.add_argument("which", choices=("answers", "load", "browser"))
    parser.add_argument("--screenshots", type=Path, metavar="FOLDER", help="browser: write screenshots into this folder")
    args = parser.parse_args()
    from served import Tests
    with tempfile.TemporaryDirectory(prefix="texcache-viewer-") as room:
        tests = Tests(Path(room), args.screenshots)
        importlib.import_module(args.which).run(tests)
    print(f"viewer {args.which}: {tests.passed} passed, {tests.failed} failed")
    return 1 if tests.failed else 0


if __name__ == "__main__":
    sys.exit(main())
