"""Explains the answers of texcache in words and says what helps: for explain.py, folder_info.py and ./texmake, and for
the errors of the C library. The numbers of fields and values are from TIFF 6.0 and the register of compressions."""

FIELDS = {256: "ImageWidth", 257: "ImageLength", 258: "BitsPerSample", 259: "Compression",
          262: "PhotometricInterpretation", 273: "StripOffsets", 277: "SamplesPerPixel", 278: "RowsPerStrip",
          284: "PlanarConfiguration", 322: "TileWidth", 323: "TileLength", 324: "TileOffsets", 339: "SampleFormat"}

COMPRESSIONS = {2: "CCITT Huffman", 3: "CCITT fax, group 3", 4: "CCITT fax, group 4", 5: "LZW", 6: "JPEG, the old way",
                7: "JPEG", 8: "Deflate (zip)", 32773: "PackBits", 32946: "Deflate (zip), the old number",
                34712: "JPEG 2000", 34887: "LERC", 34925: "LZMA", 50000: "Zstandard", 50001: "WebP", 50002: "JPEG XL"}

COLOURS = {3: "a palette", 4: "a mask", 5: "CMYK", 6: "YCbCr", 8: "CIE L*a*b*", 9: "ICC L*a*b*", 10: "ITU L*a*b*",
           32803: "a colour filter array", 32844: "LogL", 32845: "LogLuv", 34892: "linear raw"}

FORMATS = {2: "signed numbers", 3: "floating point", 5: "complex signed numbers", 6: "complex floating point"}

PLAIN = "oiiotool {name} -d uint8 --compression none -o OUT.tif"
SRGB = "convert {name} -colorspace sRGB -depth 8 -compress none OUT.tif"
AGAIN = "write it again: tiffcp -c none {name} OUT.tif"
ANEW = "copy the file again, or write it again with the program that made it"


def counted(number, noun):
    """A number with its noun."""
    return f"{number} {noun}{'' if int(number) == 1 else 's'}"


def _unsupported():
    """The rows of fault 7, a field with an unsupported value. A row whose value is None is for all other values."""
    wide = PLAIN + ", or -d uint16"
    for value, known in [*COMPRESSIONS.items(), (None, "an unknown method")]:
        yield 7, 259, value, f"Compression is {{value}}, {known}", "tiffcp -c none {name} OUT.tif"
    for value, known in [*COLOURS.items(), (None, "an unknown kind")]:
        helps = SRGB if value in (5, 8, 9, 10) else PLAIN
        yield 7, 262, value, f"its PhotometricInterpretation is {{value}}, {known}", helps
    yield 7, 258, None, "its samples must all have 8 bits, or all 16: one has {value}", wide
    for value, known in [*FORMATS.items(), (None, "an unknown kind")]:
        yield 7, 339, value, f"its SampleFormat is {{value}}, {known}", wide
    yield 7, None, None, "{field} is {value}", AGAIN


# Each fault: its number, its field and value (None for any), what it means and what helps. The first row that fits
# counts. tools/check fault-words makes the table of the C library of these rows.
FAULTS = [
    (1, None, None, "it is shorter than a header", "if it is a TIFF, " + ANEW),
    (2, None, None, "it begins neither with II nor with MM, so it is not a TIFF", PLAIN),
    (3, None, None, "it begins like a TIFF, but its version is neither 42 nor 43", PLAIN),
    (4, None, None, "its directory is not completely in the file: the file was cut short", ANEW),
    (5, None, None, "it has no {field}", AGAIN),
    (6, None, None, "its {field} has an unsupported type, no value, or values outside the file", AGAIN),
    *_unsupported(),
    (8, None, None, "its width, its height, the number of its channels or the rows of a strip are 0", AGAIN),
    (9, None, None, "a side is longer than 131072 texels, or it has more than 8 channels",
     "oiiotool {name} --resize 131072x0 (or --ch R,G,B) -d uint8 --compression none -o OUT.tif"),
    (10, None, None, "the sides of its tiles are not multiples of 16",
     "oiiotool {name} -d uint8 --compression none --tile 64 64 -o OUT.tif"),
    (11, None, None, "it has fewer strips or tiles than its width and height need", AGAIN),
    (12, None, None, "strip or tile {value} of level {part} is not completely in the file: the file was cut short, or "
     "its writer left this block out (a sparse file)", ANEW),
]


def fault(numbers):
    """What a fault of a file means, and what helps. `numbers` are those that follow the generation in the answer."""
    code, part, value = [*numbers, 0, 0][:3]
    for number, field, of_value, means, helps in FAULTS:
        if number == code and field in (None, part) and of_value in (None, value):
            return means.format(field=FIELDS.get(part, f"field {part}"), part=part, value=value), helps
    raise KeyError(code)


# What a run prints if it answers no request, and the causes of a bad list (docs/REQUESTS.md, "Causes").
ENDINGS = {
    "bad words": "the arguments are not accepted; ./texcache --help shows all options",
    "folder fault": "the folder could not be read",
    "list fault": "the list could not be read",
    "too many files": "the folder has more than 4096 files",
}
CAUSES = {
    1: "it does not begin with the name of a request", 2: "a field is missing, or the name of the file is empty",
    3: "a number is not written as one: 1 to 10 digits after exactly one space",
    4: "a number is out of its range", 5: "a wrap or a filter has an unknown name",
    6: "something follows a request that has no fields, maybe a space", 7: "it is not UTF-8",
    8: "it is request 1048577, and a list has at most 1048576", 9: "the list has more than 16777216 bytes",
}


def ending(line):
    """What the only line of a run that answered no request means; None for every other line."""
    words = line.split(" ")
    if words[:2] == ["bad", "list"]:
        where = f"line {words[2]} of the list: " if words[2] != "0" else ""
        return where + CAUSES[int(words[3])]
    return ENDINGS.get(line)


REFUSALS = {
    "no such file": "the folder has no such file (subfolders are not read), or the UDIM texture has no tile here",
    "region too large": "the region has more than 1048576 texels",
    "holds full": "the worker already holds four tiles",
    "nothing held": "the worker holds no tile",
    "read fault": "the file could not be opened or read, or was replaced twice while it was read",
    "no memory": "there was not enough memory for this answer",
}


def refusal(line):
    """What a refusal means, and what helps, or None if nothing does. None alone if the line is an answer."""
    words = line.split(" ")
    if line in REFUSALS:
        return REFUSALS[line], None
    if line.startswith("bad file"):
        means, helps = fault([int(it) for it in words[3:]])
        return f"the file is not accepted: {means}", helps
    if line.startswith("tile too large"):
        return "a cell of a level needs more than 32 MiB", "a smaller --autotile, or smaller tiles in the file"
    if line.startswith("no level"):
        return f"the file has {words[3]} levels, 0 to {int(words[3]) - 1}", None
    if line.startswith("outside"):
        return "the level has no such texel", None
    if line.startswith("again"):
        return (f"the file was replaced: version {words[1]} is gone, version {words[2]} is there",
                "send the same request again")
    return None
