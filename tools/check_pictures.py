#!/usr/bin/env python3
"""Now tools/check pictures."""
from texcheck.common import forwarded

if __name__ == "__main__":
    forwarded("pictures", program=True)
