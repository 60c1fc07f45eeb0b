"""Makes PNG and JPEG images of texels: which channels are shown, and how 16-bit values become 8-bit ones."""
from __future__ import annotations

import io
from typing import Any, Optional, Tuple

import numpy
from PIL import Image

from ._folder import Absent

TYPES = {"png": "image/png", "jpg": "image/jpeg"}


def narrow(values: Any) -> Any:
    """The nearest 8-bit values. Those of an 8-bit file are its samples."""
    return ((values.astype(numpy.uint32) + 128) // 257).astype(numpy.uint8)


def shown(values: Any, channel: str) -> Any:
    """The channels that an image shows: `rgb`, `a` for alpha, or the number of one. A file of one or two channels has
    its first as grey; the alpha is the second of two, or the fourth."""
    count = values.shape[2]
    if channel == "rgb":
        return values[:, :, :3] if count >= 3 else values[:, :, :1]
    if channel == "a":
        at = 1 if count == 2 else 3
    else:
        at = int(channel)
    if at >= count:
        raise Absent(f"the file has {count} channel{'s' if count > 1 else ''}, and no {'alpha' if channel == 'a' else f'channel {at}'}")
    return values[:, :, at:at + 1]


def encoded(values: Any, channel: str, kind: str, around: Optional[Tuple[int, int, int, int]] = None) -> bytes:
    """An image of 16-bit values. With `around` (width, height, left, top) it lies in a larger, transparent one."""
    samples = numpy.ascontiguousarray(narrow(shown(values, channel)))
    image = Image.fromarray(samples[:, :, 0] if samples.shape[2] == 1 else samples)
    if around and around[:2] != image.size:
        inside = image.convert("RGBA" if image.mode == "RGB" else "LA")
        image = Image.new(inside.mode, around[:2])
        image.paste(inside, around[2:])
    out = io.BytesIO()
    if kind == "png":
        image.save(out, "PNG", compress_level=1)
    else:
        image.save(out, "JPEG", quality=92, subsampling=0)
    return out.getvalue()
