"""Textures of folders of TIFF files, over the library of texcache.h.

    import texcache
    with texcache.Cache("textures") as cache:
        textures, wall = cache.this_thread(), cache.find("wall.tif")
        print(textures.info(wall).width)
        print(textures.texture(wall, 0.5, 0.5, channels=3))       # one lookup: a list of three values, 0 to 65535
        s = t = numpy.linspace(0, 1, 4096)
        rgb = textures.texture(wall, s, t, floats=True)           # many: an array of 4096 by 3 floats, 0 to 1
        textures.texture(wall, s, t, out=rgb)                     # into an array that you have
        corner = textures.pixels(wall, level=0, x=0, y=0, w=64, h=64)    # a region: 64 by 64 by 3, uint16

Each thread looks up through a pass of its own: Cache.this_thread. A call that fails raises Refused, with its number, its
text and its details. Calls release the interpreter's lock, so threads of Python look up at the same time. Without numpy
many lookups take and give lists. help(texcache.Pass) has the lookups.

The library is libtexcache.so in this package, or the one that TEXCACHE_LIBRARY names.
"""
from ._arrays import numpy as numpy
from ._cache import OPTIONS, Cache, Closed, Pass, Refused
from ._library import version
from ._structs import (BAD_OPTIONS, BAD_REQUEST, CLOSED, NOT_LOCAL, OK, SMALL_BUFFER, Answer, Counts, Filter, Info,
                       Shard, Statistics, Tile, Wrap)
from ._version import VERSION

BLACK, CLAMP, PERIODIC, MIRROR = Wrap.BLACK, Wrap.CLAMP, Wrap.PERIODIC, Wrap.MIRROR
CLOSEST, BILINEAR, TRILINEAR = Filter.CLOSEST, Filter.BILINEAR, Filter.TRILINEAR

__version__ = VERSION
__all__ = ["Cache", "Pass", "Refused", "Closed", "Wrap", "BLACK", "CLAMP", "PERIODIC", "MIRROR", "Filter", "CLOSEST",
           "BILINEAR", "TRILINEAR", "Answer", "Info", "Tile", "Counts", "Statistics", "Shard", "version", "VERSION",
           "OPTIONS", "OK", "BAD_OPTIONS", "BAD_REQUEST", "SMALL_BUFFER", "NOT_LOCAL", "CLOSED", "numpy"]
