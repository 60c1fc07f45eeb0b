#!/usr/bin/env python3
"""Now tools/check planted-bugs."""
from texcheck.common import forwarded

if __name__ == "__main__":
    forwarded("planted-bugs")
