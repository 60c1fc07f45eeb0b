#!/usr/bin/env python3
"""Now tools/check textures."""
from texcheck.common import forwarded

if __name__ == "__main__":
    forwarded("textures")
