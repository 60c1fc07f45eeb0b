#!/usr/bin/env python3
"""Now tools/check many-lookups."""
from texcheck.common import forwarded

if __name__ == "__main__":
    forwarded("many-lookups")
