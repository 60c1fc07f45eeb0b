#!/usr/bin/env python3
"""Compares level 0 of a texture with its image, as tifffile and Pillow read them: compare_texels.py IMAGE TEXTURE MOST.

It needs numpy, Pillow and tifffile. It ends with 3 if a value differs by more than MOST (of 0 to 1), and with 1 if it
cannot tell.
"""
import argparse
import sys

OTHER_VALUES = 3


def texels(path):
    """The values of an image, rows of texels of channels, from 0 to 1."""
    import numpy
    import tifffile
    from PIL import Image
    try:
        page = tifffile.TiffFile(path).pages[0]
        if page.photometric.name not in ("RGB", "MINISBLACK", "MINISWHITE"):
            raise ValueError("Pillow turns it into RGB")
        found = page.asarray()
        if page.planarconfig == 2:
            found = numpy.moveaxis(found, 0, -1)
        if page.photometric.name == "MINISWHITE":
            # TIFF 6.0, section 8: 0 is white, and only the first channel is a colour
            found = found.reshape(page.imagelength, page.imagewidth, -1).copy()
            found[:, :, 0] = numpy.iinfo(found.dtype).max - found[:, :, 0]
    except (ValueError, tifffile.TiffFileError):
        opened = Image.open(path)
        found = numpy.asarray(opened.convert("RGB") if opened.mode in ("P", "CMYK", "1") else opened)
    found = found.reshape(found.shape[0], found.shape[1], -1)
    if found.dtype.kind == "f":
        return numpy.clip(numpy.nan_to_num(found, posinf=0, neginf=0), 0, 1)
    return found / float(numpy.iinfo(found.dtype).max)


def main():
    asked = argparse.ArgumentParser(description=__doc__, formatter_class=argparse.RawDescriptionHelpFormatter)
    asked.add_argument("image")
    asked.add_argument("texture")
    asked.add_argument("most", type=float)
    args = asked.parse_args()
    try:
        image, texture = texels(args.image), texels(args.texture)
    except (ImportError, OSError, ValueError) as error:
        sys.exit(f"it cannot be compared: {error}")
    if image.shape != texture.shape:
        print(f"the image has {image.shape} rows, columns and channels, and the texture {texture.shape}")
        return OTHER_VALUES
    if (most := abs(image - texture).max()) > args.most:
        print(f"a value differs by {most:g}")
        return OTHER_VALUES
    return 0


if __name__ == "__main__":
    sys.exit(main())
