"""Which images a folder has, what the texture of each is called, and which of them are tiles of one UDIM texture."""
import os
import re
from collections import Counter, defaultdict
from dataclasses import dataclass
from pathlib import Path

# Files with other endings are no images; they are counted and left alone.
TIFF_ENDINGS = {".tif", ".tiff", ".tx", ".btf", ".tf8", ".ptif"}
ENDINGS = TIFF_ENDINGS | set(
    ".png .jpg .jpeg .jpe .jfif .exr .hdr .rgbe .pic .tga .bmp .dib .gif .webp .psd .psb .dpx .cin .sgi .rgb .rgba .bw "
    ".jp2 .j2k .jpc .j2c .iff .pbm .pgm .ppm .pnm .pfm .pcx .fits .heic .heif .avif .jxl .cr2 .dng .nef .arw .rla "
    ".zfile .ico .svg".split())
KEPT_ENDINGS = {".tif", ".tiff"}
# the names of one folder that the cache serves
MAX_NAMES = 4096
TILE_NUMBER = re.compile(r"(?<!\d)([1-9]\d{3})(?!\d)")
FIRST_TILE, LAST_TILE_OF_A_SET = 1001, 1999


@dataclass
class Image:
    """An image of the source folder. The names are relative to the two folders."""
    path: Path
    name: str
    target: str
    size: int
    time: int
    # why no texture can be made of it, whatever its bytes are
    refused: str = ""


def shown(name):
    """A name that can be printed on any terminal, on one line."""
    if "\n" not in name and "\r" not in name:
        try:
            name.encode()
            return name
        except UnicodeEncodeError:
            pass
    return ascii(name)


def target_of(name, is_flat):
    path = Path(name)
    if path.suffix.lower() not in KEPT_ENDINGS:
        path = path.with_suffix(".tif")
    return "_".join(path.parts) if is_flat else str(path)


def bad_name(name):
    """Why no request can name a file; empty if one can."""
    if "\n" in name or "\r" in name:
        return "its name has a line break, so no request can name it. What helps: rename it"
    try:
        name.encode()
    except UnicodeEncodeError:
        return "its name is not UTF-8, so no request can name it. What helps: rename it"
    return ""


def image_at(source, name, is_flat):
    """The image of this name, with the size and the time that its file has now."""
    path = Path(source, name)
    found = path.stat()
    return Image(path, name, target_of(name, is_flat), found.st_size, found.st_mtime_ns, bad_name(name))


def walk(source, dest):
    """The relative names of all files below a folder, each with the reason why it cannot be read, mostly empty. Links
    are followed, but not into the destination, and each folder is visited once."""
    seen, left = set(), [""]
    while left:
        folder = left.pop()
        try:
            found = os.stat(Path(source, folder))
            entries = list(os.scandir(Path(source, folder)))
        except OSError as error:
            yield folder, f"the folder cannot be read: {error.strerror}"
            continue
        if (found.st_dev, found.st_ino) in seen:
            continue
        seen.add((found.st_dev, found.st_ino))
        for entry in entries:
            name = os.path.join(folder, entry.name)
            is_folder = os.path.isdir(entry.path)
            if entry.name.startswith(".") or is_folder and is_inside(Path(os.path.realpath(entry.path)), dest):
                continue
            if is_folder:
                left.append(name)
            elif os.path.isfile(entry.path) or entry.is_symlink():
                yield name, ""


def is_inside(path, folder):
    return path == folder or folder in path.parents


def images_of(source, dest, is_flat):
    """The images below a folder, in the order of their names, and the names of the other files."""
    images, others = [], []
    for name, refused in sorted(walk(source, dest)):
        if not refused and Path(name).suffix.lower() not in ENDINGS:
            others.append(name)
            continue
        try:
            if refused:
                raise OSError(0, refused)
            images.append(image_at(source, name, is_flat))
        except OSError as error:
            target = name if refused else target_of(name, is_flat)
            images.append(Image(Path(source, name), name or ".", target, 0, 0, error.strerror))
    by_target = defaultdict(list)
    for it in images:
        by_target[it.target].append(it)
    for target, same in by_target.items():
        for it in same if len(same) > 1 else ():
            others_of_it = " and ".join(shown(other.name) for other in same if other is not it)
            it.refused = it.refused or (f"{others_of_it} would make the same texture, {shown(target)}. What helps: "
                                        "rename one of them")
    return images, others


def udim_of(target):
    """The name of a UDIM texture, and the number of its tile, that a target may be; or None."""
    folder, name = os.path.split(target)
    found = list(TILE_NUMBER.finditer(name))
    if not found or int(found[-1][1]) < FIRST_TILE:
        return None
    return os.path.join(folder, f"{name[:found[-1].start()]}<UDIM>{name[found[-1].end():]}"), int(found[-1][1])


def udim_sets(targets):
    """The UDIM textures among targets: the targets by tile number, by name. One tile alone counts if it is 1001."""
    found = defaultdict(dict)
    for it in targets:
        if udim := udim_of(it):
            found[udim[0]][udim[1]] = it
    return {name: dict(sorted(tiles.items())) for name, tiles in sorted(found.items())
            if min(tiles) <= LAST_TILE_OF_A_SET and (len(tiles) > 1 or FIRST_TILE in tiles)}


def odd_tiles(facts):
    """The tiles whose facts differ from those that most tiles have, and those facts."""
    usual = Counter(facts.values()).most_common(1)[0][0]
    return {number: it for number, it in facts.items() if it != usual}, usual
