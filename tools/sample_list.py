#!/usr/bin/env python3
"""Now tools/check sample --list."""
from texcheck.common import forwarded

if __name__ == "__main__":
    forwarded("sample", "--list")
