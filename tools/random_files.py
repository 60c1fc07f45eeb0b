#!/usr/bin/env python3
"""Now tools/check random-files."""
from texcheck.common import forwarded

if __name__ == "__main__":
    forwarded("random-files")
