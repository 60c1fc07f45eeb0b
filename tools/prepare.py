#!/usr/bin/env python3
"""Makes textures of all images of a folder: with all MIP levels, in tiles, as the cache reads them best.

    tools/prepare.py SOURCE DEST               # the TIFFs that the cache accepts
    tools/prepare.py SOURCE DEST --convert     # PNG, JPEG, EXR, compressed TIFF and others too
    tools/prepare.py SOURCE DEST --check       # only say what would be done

Subfolders are kept. What is up to date is skipped, and a texture appears only once it is whole. The destination has to
be outside the source and outside this repository. Converted are images by oiiotool, or else vips or ImageMagick; their
values are kept, and floats are clamped to 0 to 1. The texture of sub/wall.png is sub/wall.tif.

Status 0: all textures are there. 1: some image failed. 2: bad arguments. 130: interrupted.
"""
import argparse
import os
import sys
from pathlib import Path

from texcheck.common import TOP, add_program, program_of, tool
from texprepare.children import Children
from texprepare.comparing import comparison
from texprepare.converters import NAMES, installed
from texprepare.making import Maker
from texprepare.naming import image_at, images_of, is_inside, shown
from texprepare.plans import listed, planned
from texprepare.running import INTERRUPTED, Run

SIDES = range(16, 257, 16)


def arguments():
    asked = argparse.ArgumentParser(description=__doc__, formatter_class=argparse.RawDescriptionHelpFormatter,
                                    allow_abbrev=False)
    asked.add_argument("source", type=Path, metavar="SOURCE", help="the folder of images")
    asked.add_argument("dest", type=Path, metavar="DEST", help="the folder for the textures; it is made if it is missing")
    asked.add_argument("--convert", action="store_true", help="convert images that the cache does not accept")
    asked.add_argument("--bits", type=int, choices=(8, 16), default=16, help="of converted images; 16")
    asked.add_argument("--converter", choices=NAMES, help="use this converter; else the first that is installed")
    asked.add_argument("--tile", type=int, default=64, metavar="T",
                       help="the side of the tiles, a multiple of 16 from 16 to 256; 64")
    asked.add_argument("--flat", action="store_true", help="sub/wall.tif becomes sub_wall.tif: the cache reads one folder")
    asked.add_argument("--jobs", type=int, default=len(os.sched_getaffinity(0)), metavar="N",
                       help="how many textures are made at once; as many as there are processors")
    asked.add_argument("--verify", action="store_true", help="compare each texture with its image by another reader")
    asked.add_argument("--only", action="append", metavar="NAME", help="only this image; its name is relative to SOURCE")
    what = asked.add_mutually_exclusive_group()
    what.add_argument("--check", action="store_true", help="say what would be done, and how much disk and time it takes")
    what.add_argument("--list", action="store_true", help="print a command for each texture that is to be made")
    add_program(asked, "texmake")
    options = asked.parse_args()
    wrong = wrong_options(options)
    if wrong:
        asked.error(wrong)
    return options


def wrong_options(options):
    """What is wrong with the options, or an empty text. Makes the paths of both folders absolute."""
    source, dest, top = (Path(os.path.realpath(it)) for it in (options.source, options.dest, TOP))
    if not source.is_dir():
        return f"there is no folder {shown(str(options.source))}"
    if dest.exists() and not dest.is_dir():
        return f"{shown(str(options.dest))} is not a folder"
    if is_inside(dest, source):
        return "the destination is inside the source; its textures would be taken for images. Choose a folder beside it"
    if is_inside(source, dest):
        return "the source is inside the destination, where textures could replace images. Choose a folder beside it"
    if is_inside(dest, top):
        return f"the destination is inside the repository {top}; choose a folder outside"
    if options.tile not in SIDES:
        return f"--tile {options.tile}: a multiple of 16 from 16 to 256 is expected"
    if options.jobs < 1:
        return f"--jobs {options.jobs}: at least 1 is expected"
    options.source, options.dest = source, dest
    return ""


def chosen(options):
    """The images to make textures of, and the names of the files that are not images."""
    if not options.only:
        return images_of(options.source, options.dest, options.flat)
    found = []
    for given in options.only:
        name = os.path.normpath(given)
        if name.startswith(("/", "..")):
            sys.exit(f"prepare.py: --only {shown(given)}: a name below SOURCE is expected, such as sub/wall.png")
        try:
            found.append(image_at(options.source, name, options.flat))
        except OSError as error:
            sys.exit(f"prepare.py: --only {shown(given)}: {error.strerror}")
    return found, []


def prepare(options):
    """Does what is asked for, and gives the exit status."""
    images, others = chosen(options)
    if others:
        names = ", ".join(map(shown, others[:5])) + (" .." if len(others) > 5 else "")
        print(f"{len(others)} file{'s' * (len(others) != 1)} left out, not named as an image: {names}", file=sys.stderr)
    if not images:
        print(f"prepare.py: {options.source} has no images", file=sys.stderr)
        return 0
    children = Children()
    converter = installed(children.run, options.tile, options.bits, options.converter)
    if options.check:
        return planned(Maker(options, children, converter), images)
    options.program = program_of(options, "texmake")
    maker = Maker(options, children, converter, comparison(children.run) if options.verify else None)
    if options.list:
        return listed(maker, images)
    return Run(options, maker, children).all(images)


def main():
    options = arguments()
    for stream in (sys.stdout, sys.stderr):
        # a name that the terminal cannot show must not end the run
        stream.reconfigure(errors="backslashreplace")
    try:
        return prepare(options)
    except KeyboardInterrupt:
        print("prepare.py: interrupted", file=sys.stderr)
        return INTERRUPTED
    except BrokenPipeError:
        # whoever read the lines has gone: nothing more can be said
        os.dup2(os.open(os.devnull, os.O_WRONLY), sys.stdout.fileno())
        return 1


if __name__ == "__main__":
    tool(main)
