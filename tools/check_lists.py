#!/usr/bin/env python3
"""Now tools/check lists."""
from texcheck.common import forwarded

if __name__ == "__main__":
    forwarded("lists", program=True)
