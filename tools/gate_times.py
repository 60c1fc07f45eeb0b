#!/usr/bin/env python3
"""Now tools/check ci-times."""
from texcheck.common import forwarded

if __name__ == "__main__":
    forwarded("ci-times")
