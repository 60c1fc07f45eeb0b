"""The programs that convert images: oiiotool, vips and ImageMagick. Each makes a flat TIFF that texmake reads, and of
images above texmake's limit a texture with all levels.

Values are kept as the image has them: alpha is not multiplied in, and floats keep what is between 0 and 1.
"""
import re
import shlex
import shutil
from pathlib import Path

from texcheck.pictures import program_named
from texprepare.sizes import Facts, texture_bytes

FLOAT_ENDINGS = {".exr", ".hdr", ".rgbe", ".pfm"}
# formats that have whole numbers alone
WHOLE_ENDINGS = {".png", ".jpg", ".jpeg", ".tga", ".bmp", ".gif", ".webp", ".jp2"}
# a TIFF whose offsets have 32 bits ends below this
BIG_BYTES = 2 ** 32 - 2 ** 20
# what some signals mean that end a converter
ENDED = {-25: "the limit of a file's size (ulimit -f) is lower than what it writes", -9: "it was ended; memory may be short"}
NUMBERS = re.compile(r"Stats (Min|Max|NanCount|InfCount): ([^(\n]*)(\((?:float|half)\))?")
INFO_LINE = re.compile(r" : +(\d+) x +(\d+), (\d+) channel, (?:deep )?(\w+)")
VIPS_LINE = re.compile(r": (\d+)x(\d+) (\w+), (\d+) bands?, (\w+)")


class NotConverted(Exception):
    """The converter could not do it; the text says why."""


def first_line(text):
    lines = [it.strip() for it in text.splitlines() if it.strip() and "WARNING" not in it]
    return re.sub(r"^\S*: |oiiotool ERROR: (\w+ : )?", "", lines[0])[:300] if lines else "it says nothing"


def numbers(text):
    for it in text.split():
        try:
            yield float(it)
        except ValueError:
            continue


class Converter:
    """`run` runs a program as Children.run does."""
    package = ""

    def __init__(self, run, tile, bits):
        self.run, self.tile, self.bits = run, str(tile), bits

    def called(self, *words):
        status, text = self.run(words)
        if status:
            why = ENDED.get(status, f"was ended by signal {-status}") if status < 0 else first_line(text)
            raise NotConverted(f"{Path(words[0]).name}: {why}")
        return text

    def is_big(self, facts, bits):
        """Whether the texture needs offsets of 64 bits."""
        return texture_bytes(facts._replace(depth=bits), int(self.tile)) > BIG_BYTES

    def is_float(self, path):
        return path.suffix.lower() in FLOAT_ENDINGS


class Oiiotool(Converter):
    name, package = "oiiotool", "openimageio-tools"

    @staticmethod
    def is_there():
        return shutil.which("oiiotool") is not None

    def read(self, path):
        """What reads an image. The first part of several counts; an EXR is cut or filled to its display window."""
        words = ["oiiotool", "--threads", "1", "--iconfig", "oiio:UnassociatedAlpha", "1", "-i", path, "--subimage", "0"]
        # else a CMYK image, which is read as RGB, would be written as CMYK
        words += ["--eraseattrib", "tiff:.*"]
        return words + (["--croptofull"] if path.suffix.lower() == ".exr" else [])

    def written(self, path, bits, stats, *more):
        return self.called(*self.read(path), *stats, "-d", f"uint{bits}", "--compression", "none", "--tile", self.tile,
                           self.tile, *more)

    @staticmethod
    def clamped(text):
        """What of float values was outside 0 to 1, in words; empty if nothing was."""
        found = {kind: (list(numbers(values)), is_float) for kind, values, is_float in NUMBERS.findall(text)}
        least, most = found.get("Min", ([0], "")), found.get("Max", ([1], ""))
        odd = sum(sum(found.get(it, ([0], ""))[0]) for it in ("NanCount", "InfCount"))
        if not least[1] or min(least[0]) >= 0 and max(most[0]) <= 1 and not odd:
            return ""
        return (f"values from {min(least[0]):g} to {max(most[0]):g}"
                + (f", {odd:.0f} that are infinite or no numbers" if odd else ""))

    def flat(self, path, to):
        stats = [] if path.suffix.lower() in WHOLE_ENDINGS else ["--printstats"]
        return self.clamped(self.written(path, self.bits, stats, "-o", to))

    def levels(self, path, to, bits, facts):
        big = ["--attrib", "tiff:bigtiff", "1"] if self.is_big(facts, bits) else []
        self.written(path, bits, [], *big, "-otex", to)

    def facts(self, paths):
        """The facts of images, by path; an image that cannot be read is missing. A call ends at the first of these."""
        found, left = {}, list(paths)
        while left:
            lines = self.run(["oiiotool", "--info", *left])[1].splitlines()
            count = 0
            for path, line in zip(left, (it for it in lines if INFO_LINE.search(it))):
                width, height, channels, kind = INFO_LINE.search(line).groups()
                found[path], count = Facts(int(width), int(height), int(channels), kind), count + 1
            left = left[count + 1:]
        return found

    def command(self, path):
        return f"oiiotool {shlex.quote(str(path))} -d uint{self.bits} --compression none -o OUT.tif"

    def levels_command(self, path):
        return (f"oiiotool {shlex.quote(str(path))} --compression none --tile {self.tile} {self.tile} -otex OUT.tif")


class Vips(Converter):
    name, package = "vips", "libvips-tools"
    WHITE = {"uchar": 255, "ushort": 65535}

    @staticmethod
    def is_there():
        return shutil.which("vips") is not None

    def facts(self, paths):
        found = {}
        for path in paths:
            if it := VIPS_LINE.search(self.run(["vipsheader", path])[1]):
                found[path] = Facts(int(it[1]), int(it[2]), int(it[4]), it[3])
        return found

    def read(self, path, room):
        """The image in files of vips: RGB instead of CMYK, by the formula of the other converters, and without the alpha
        that vips adds to an EXR. Gives the file, the kind of its samples, and the greatest of them."""
        line = VIPS_LINE.search(self.called("vipsheader", path))
        kind, bands, space = line[3], int(line[4]), line[5]
        white = self.WHITE.get(kind, 1)
        step = f"{path}[fail_on=truncated]" if path.suffix.lower() in (".jpg", ".jpeg", ".png") else path
        if space == "cmyk":
            self.called("vips", "invert", step, room / "white.v")
            self.called("vips", "extract_band", room / "white.v", room / "key.v", "3")
            self.called("vips", "extract_band", room / "white.v", room / "inks.v", "0", "--n", "3")
            self.called("vips", "multiply", room / "inks.v", room / "key.v", room / "product.v")
            self.called("vips", "copy", room / "product.v", room / "rgb.v", "--interpretation", "srgb")
            return room / "rgb.v", "product", white * white
        if path.suffix.lower() == ".exr" and bands == 4:
            # vips gives every EXR an alpha, of 0 to 255
            self.called("vips", "extract_band", step, room / "colours.v", "0", "--n", "3")
            self.called("vips", "extract_band", step, room / "alpha.v", "3")
            least = float(self.called("vips", "min", room / "alpha.v"))
            step = room / "colours.v"
            if least != 255:
                self.called("vips", "linear", room / "alpha.v", room / "share.v", repr(1 / 255), "0")
                self.called("vips", "bandjoin", f"{step} {room / 'share.v'}", room / "joined.v")
                step = room / "joined.v"
        return step, kind, white

    def saved(self, path, to, bits, *more):
        """Writes the image, step by step in files beside the result."""
        room, clamped, wanted = to.parent, "", "uchar" if bits == 8 else "ushort"
        step, kind, white = self.read(path, room)
        if white == 1:
            least, most = (float(self.called("vips", it, step)) for it in ("min", "max"))
            clamped = "" if 0 <= least <= most <= 1 else f"values from {least:g} to {most:g}"
        if kind != wanted:
            # a cast cuts off the fraction, and what is outside the range
            self.called("vips", "linear", step, room / "scaled.v", repr((2 ** bits - 1) / white), "0.5")
            self.called("vips", "cast", room / "scaled.v", room / "whole.v", wanted)
            step = room / "whole.v"
        self.called("vips", "tiffsave", step, to, "--compression", "none", "--tile", "--tile-width", self.tile,
                    "--tile-height", self.tile, *more)
        for it in room.glob("*.v"):
            it.unlink()
        return clamped

    def flat(self, path, to):
        return self.saved(path, to, self.bits)

    def levels(self, path, to, bits, facts):
        self.saved(path, to, bits, "--pyramid", "--depth", "onepixel",
                   *(["--bigtiff"] if self.is_big(facts, bits) else []))

    def command(self, path):
        return f"vips tiffsave {shlex.quote(str(path))} OUT.tif --compression none"

    def levels_command(self, path):
        return (f"vips tiffsave {shlex.quote(str(path))} OUT.tif --compression none --tile --tile-width {self.tile} "
                f"--tile-height {self.tile} --pyramid --depth onepixel")


class ImageMagick(Converter):
    name, package = "ImageMagick", "imagemagick"
    TYPES = {"gray": "Grayscale", "graya": "GrayscaleAlpha", "srgba": "TrueColorAlpha", "cmyk": "TrueColor"}

    @staticmethod
    def is_there():
        return bool(program_named("convert") and shutil.which("identify"))

    def facts(self, paths):
        found = {}
        for path in paths:
            if it := self.identified(path):
                found[path] = Facts(int(it[0]), int(it[1]), {"gray": 1, "graya": 2, "srgba": 4}.get(it[2].lower(), 3), it[3])
        return found

    def identified(self, path):
        found = self.run(["identify", "-format", "%w %h %[channels] %z\n", f"{path}[0]"])[1].splitlines()
        return next((it.split() for it in found if re.fullmatch(r"\d+ \d+ \w+ \d+", it)), None)

    def saved(self, path, to, bits, form, more):
        found = self.identified(path)
        if not found:
            raise NotConverted("ImageMagick cannot read it")
        kind = self.TYPES.get(found[2].lower(), "TrueColor")
        space = ["-colorspace", "sRGB"] if found[2].lower() == "cmyk" else []
        text = self.called(program_named("convert"), f"{path}[0]", *space, "-type", kind, "-depth", bits, *more,
                           "-compress", "none", "-define", f"tiff:tile-geometry={self.tile}x{self.tile}", f"{form}:{to}")
        if re.search(r"[Cc]orrupt|[Pp]remature|[Uu]nexpected end", text):
            raise NotConverted(f"ImageMagick: {first_line(text)}")
        is_unknown = self.is_float(path) or found[3] in ("32", "64")
        return "floats, and ImageMagick does not say which values were outside" if is_unknown else ""

    def called(self, *words):
        return super().called(*map(str, words))

    def flat(self, path, to):
        return self.saved(path, to, self.bits, "tiff", [])

    def levels(self, path, to, bits, facts):
        more, width, height = [], facts.width, facts.height
        while (width, height) != (1, 1):
            width, height = max(1, width // 2), max(1, height // 2)
            more += ["(", "+clone", "-scale", f"{width}x{height}!", ")"]
        self.saved(path, to, bits, "tiff64" if self.is_big(facts, bits) else "tiff", more)

    def command(self, path):
        return f"convert {shlex.quote(str(path))} -depth {self.bits} -compress none OUT.tif"

    def levels_command(self, path):
        return Oiiotool.levels_command(self, path)


ALL = (Oiiotool, Vips, ImageMagick)
NAMES = [it.name for it in ALL]


def installed(run, tile, bits, name=None):
    """The converter of this name, or the first that is installed; None if it is not installed."""
    found = [it for it in ALL if name in (None, it.name) and it.is_there()]
    return found[0](run, tile, bits) if found else None
