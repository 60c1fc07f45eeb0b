#!/usr/bin/env python3
"""One lookup in the middle of an image: PYTHONPATH=PREFIX/lib/texcache/python python3 lookup.py FOLDER NAME."""
import argparse


def main():
    parser = argparse.ArgumentParser(description=__doc__)
    parser.add_argument("folder", metavar="FOLDER")
    parser.add_argument("name", metavar="NAME")
    args = parser.parse_args()
    import texcache  # once the arguments are right: it loads the library
    with texcache.Cache(args.folder) as cache:
        values = cache.this_thread().texture(cache.find(args.name), 0.5, 0.5)
    print(f"{texcache.version()}: {' '.join(map(str, values))}")


if __name__ == "__main__":
    main()
