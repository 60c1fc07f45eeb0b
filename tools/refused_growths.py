#!/usr/bin/env python3
"""Now tools/check failed-allocations."""
from texcheck.common import forwarded

if __name__ == "__main__":
    forwarded("failed-allocations", program=True)
