#!/usr/bin/env python3
"""Now tools/check examples."""
from texcheck.common import forwarded

if __name__ == "__main__":
    forwarded("examples", program=True)
