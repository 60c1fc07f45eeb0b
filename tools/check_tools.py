#!/usr/bin/env python3
"""Now tools/check user-tools."""
from texcheck.common import forwarded

if __name__ == "__main__":
    forwarded("user-tools", program=True)
