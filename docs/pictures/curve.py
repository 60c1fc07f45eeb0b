#!/usr/bin/env python3
"""Now tools/check curve: draws docs/pictures/hit_curve.svg."""
import subprocess
import sys
from pathlib import Path

if __name__ == "__main__":
    CHECK = Path(__file__).resolve().parents[2] / "tools" / "check"
    sys.exit(subprocess.run([CHECK, "curve", *sys.argv[1:]], check=False).returncode)
