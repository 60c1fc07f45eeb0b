"""Compares a texture with its image by a reader that is not ours: oiiotool, or else Pillow and tifffile, in which
libtiff and other libraries read."""
import shutil
from pathlib import Path

from texcheck.common import Missing, debian_python, said
from texcheck.plain_reader import Fault
from texprepare.compare_texels import OTHER_VALUES
from texprepare.sizes import is_tiff, tiff_field

# How far values of 0 to 1 may be apart: a float's rounding, where all bits are kept; else that of 8 bits, by which
# readers of one JPEG, palette or CMYK image differ too.
SAME, CONVERTED = 1e-6, 1 / 255 + 1e-6


class Differs(Exception):
    """The texture is not what the reader finds in the image, or the reader cannot tell; the text says how."""


def differs(text):
    return Differs(f"another reader finds other values in the image: {text}")


def not_compared(text):
    return Differs(f"it cannot be compared with the image: {text}. What helps: leave out --verify")


def by_oiiotool(run, image, texture, most):
    read = ["--iconfig", "oiio:UnassociatedAlpha", "1", "-i"]
    exr = ["--croptofull"] if image.suffix.lower() == ".exr" else []
    words = ["oiiotool", "--threads", "1", *read, image, "--subimage", "0", *exr, "--fixnan", "black", "--clamp:min=0:max=1",
             *read, texture, "--selectmip", "0", "--fail", repr(most), "--failpercent", "0", "--diff"]
    status, text = run(words)
    if status:
        lines = [it.strip() for it in text.splitlines()]
        most = [it for it in lines if it.startswith("Max error")]
        wrong = [it for it in lines if "ERROR" in it] or lines[-1:] or [f"oiiotool ended with status {status}"]
        raise differs(most[0]) if most else not_compared(wrong[0])


def by_python(run, image, texture, most):
    status, text = run([debian_python(), Path(__file__).with_name("compare_texels.py"), image, texture, repr(most)])
    if status:
        raise (differs if status == OTHER_VALUES else not_compared)(text.strip()[-300:])


def is_white(image):
    """Whether an image is a WhiteIsZero TIFF. oiiotool 2.4 turns round none of 16 bits, and of 8 bits each channel."""
    try:
        return is_tiff(image) and tiff_field(image, 262) == 0
    except Fault:
        return False


def comparison(run):
    """The function that compares an image and its texture, and raises Differs."""
    oiiotool = shutil.which("oiiotool")
    python = said([debian_python(), "-c", "import numpy, PIL, tifffile"])[0] == 0
    if not oiiotool and not python:
        raise Missing("--verify needs oiiotool, or Python's numpy, Pillow and tifffile; tools/setup installs them")

    def compare(image, texture, bits):
        by = by_python if not oiiotool or python and is_white(image) else by_oiiotool
        by(run, image, texture, CONVERTED if bits else SAME)

    return compare
