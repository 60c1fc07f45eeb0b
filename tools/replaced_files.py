#!/usr/bin/env python3
"""Now tools/check replaced-files."""
from texcheck.common import forwarded

if __name__ == "__main__":
    forwarded("replaced-files", program=True)
