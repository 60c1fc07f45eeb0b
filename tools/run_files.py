#!/usr/bin/env python3
"""Now tools/check stored-run."""
from texcheck.common import forwarded

if __name__ == "__main__":
    forwarded("stored-run")
