"""Makes the texture of one image. It is written in a hidden folder of the destination and then renamed, so a reader
sees the old file or the complete new one."""
import contextlib
import errno
import fcntl
import os
import shlex
import shutil
import socket
import tempfile
import time
from collections import namedtuple
from pathlib import Path

from texcheck.meanings import fault
from texcheck.plain_reader import Fault
from texprepare import record
from texprepare.converters import NotConverted, first_line
from texprepare.naming import image_at, shown
from texprepare.record import Record
from texprepare.sizes import MAX_SAMPLES, file_fault, is_tiff, samples, size_text, texture_bytes, tiff_facts

# the statuses of texmake (docs/TEXTURES.md, "Statuses")
MADE, NOT_WRITTEN, NO_MEMORY, BAD_FILE, TOO_LARGE, CHANGED = 0, 5, 6, 8, 9, 10
# what a signal ended that wrote more than `ulimit -f` allows
TOO_LONG = -25
PREFIX = ".prepare-"
DAY = 24 * 3600
NOT_A_TIFF = (2,)
# the faults of files that were cut short, which no converter reads either
DAMAGED = (1, 4, 12)

Made = namedtuple("Made", "made_by clamped is_large", defaults=("", False))


class Failed(Exception):
    """No texture was made; the text says why, and what helps."""


class DiskFull(Failed):
    """There is no space left for any texture."""


def free_bytes(folder):
    """What is free where a folder is, or will be."""
    folder = Path(folder)
    while not folder.exists():
        folder = folder.parent
    found = os.statvfs(folder)
    return found.f_bavail * found.f_frsize


class Room:
    """A hidden folder in the destination for unfinished files. It is removed when the run ends. If the run was killed,
    the next run removes it."""

    def __init__(self, dest):
        dest.mkdir(parents=True, exist_ok=True)
        for old in dest.glob(f"{PREFIX}*"):
            self.remove_if_left(old)
        self.path = Path(tempfile.mkdtemp(prefix=f"{PREFIX}{socket.gethostname()}-{os.getpid()}-", dir=dest))
        self.lock = open(self.path / "lock", "wb")
        with contextlib.suppress(OSError):
            fcntl.flock(self.lock, fcntl.LOCK_EX | fcntl.LOCK_NB)

    @staticmethod
    def remove_if_left(old):
        """Removes a folder that no run uses: nobody locks it, or it has no lock and is a day old."""
        with contextlib.suppress(OSError):
            if not (old / "lock").is_file():
                if time.time() - old.stat().st_mtime > DAY:
                    shutil.rmtree(old)
                return
            with open(old / "lock", "rb+") as lock:
                fcntl.flock(lock, fcntl.LOCK_EX | fcntl.LOCK_NB)
                shutil.rmtree(old)

    def close(self):
        self.lock.close()
        shutil.rmtree(self.path, ignore_errors=True)


class Maker:
    """Makes textures as the options say. The methods may be called from several threads."""

    def __init__(self, options, children, converter, compare=None):
        self.options, self.children, self.converter, self.compare = options, children, converter, compare
        self.room = None

    def target(self, image):
        return self.options.dest / image.target

    def is_current(self, image):
        """Whether the texture was made of the image as it is now. Fails if the file may not be replaced."""
        target = self.target(image)
        if not target.exists():
            return False
        if not target.is_file():
            raise Failed(f"{shown(str(target))} exists and is not a file. What helps: move it away")
        found = record.read(target)
        if not found:
            raise Failed(f"{shown(str(target))} was not made by prepare.py, and is not replaced. What helps: move it "
                         "away")
        other = self.options.source / found.source
        if found.source != image.name and other.is_file():
            if image_at(self.options.source, found.source, self.options.flat).target == image.target:
                raise Failed(f"{shown(found.source)} would make the same texture, {shown(image.target)}. What helps: "
                             "rename one of them")
        wanted = Record(image.name, image.size, image.time, self.options.tile, found.bits, found.made_by)
        return found == wanted and found.bits in (0, self.options.bits)

    def make(self, image):
        """Makes the texture, and says by which programs."""
        if image.refused:
            raise Failed(image.refused)
        room = Path(tempfile.mkdtemp(dir=self.room.path))
        part = room / "part.tif"
        try:
            made, bits = self.made(image, room, part)
            line = record.line_of(Record(image.name, image.size, image.time, self.options.tile, bits, made.made_by))
            with open(part, "ab") as file:
                file.write(line)
            if self.compare:
                self.compare(image.path, part, bits)
            self.check_unchanged(image)
            self.is_current(image)
            self.target(image).parent.mkdir(parents=True, exist_ok=True)
            os.replace(part, self.target(image))
            return made
        except OSError as error:
            if not image.path.exists():
                raise Failed("it was taken away while its texture was made") from error
            raise self.failed_to_write(error, image, part) from error
        finally:
            shutil.rmtree(room, ignore_errors=True)

    def compare_current(self, image):
        self.compare(image.path, self.target(image), record.read(self.target(image)).bits)

    def check_unchanged(self, image):
        now = image_at(self.options.source, image.name, self.options.flat)
        if (now.size, now.time) != (image.size, image.time):
            raise Failed("it was replaced while its texture was made. What helps: run prepare.py again")

    def made(self, image, room, part):
        """Writes the texture of an image, and gives how, and the bits if it was converted."""
        try:
            with open(image.path, "rb"):
                is_refused = not is_tiff(image.path)
        except OSError as error:
            raise Failed(f"it cannot be read: {error.strerror}") from error
        if not is_refused:
            (room / "in.tif").symlink_to(image.path.resolve())
            status, said = self.texmake(room, "in.tif", part)
            if status == MADE:
                self.check_size(image.path, part)
                return Made("texmake"), 0
            if status == TOO_LARGE:
                facts = tiff_facts(image.path)
                return self.with_levels(image.path, part, facts.depth, facts), 0
            if status != BAD_FILE:
                raise self.failed(status, said, image.path, part)
        return self.converted(image, room, part), self.options.bits

    def texmake(self, folder, name, part):
        with open(part, "wb") as out:
            return self.children.run([self.options.program, folder, name, str(self.options.tile)], out)

    def check_size(self, path, part):
        """Checks that every byte was written: if the disk is full, the system does not always say so."""
        wanted, found = texture_bytes(tiff_facts(path), self.options.tile), part.stat().st_size
        if abs(wanted - found) > 18 * 36:
            raise Failed(f"the texture has {found} bytes, and some {wanted} are expected; it was not kept")

    def needs_converter(self, path):
        """The failure of an image that only a converter can make, with the command that does it."""
        numbers = file_fault(path) if is_tiff(path) else NOT_A_TIFF
        if not numbers:
            means, helps = self.too_large(path)
        elif numbers == NOT_A_TIFF and path.suffix.lower() not in (".tif", ".tiff"):
            means, helps = "it is not a TIFF", fault(numbers)[1]
        else:
            means, helps = fault(numbers)
        helps = (helps or "").replace("{name}", shlex.quote(shown(str(path))))
        if self.options.convert:
            return Failed(f"{means}, and no converter is installed. What helps: tools/setup installs oiiotool; or {helps}")
        return Failed(f"{means}. What helps: {'' if numbers and numbers[0] in DAMAGED else '--convert; or '}{helps}")

    def too_large(self, path):
        tile = self.options.tile
        return (f"it has {samples(tiff_facts(path))} samples, and texmake reads at most {MAX_SAMPLES}",
                "oiiotool {name} --compression none --tile " + f"{tile} {tile} -otex OUT.tif")

    def with_levels(self, path, part, bits, facts):
        """The converter makes all levels of a large image."""
        if not self.converter or not self.options.convert:
            raise self.needs_converter(path)
        try:
            self.converter.levels(path, part, bits, facts)
        except NotConverted as error:
            raise self.not_converted(error, part, texture_bytes(facts._replace(depth=bits), self.options.tile)) from error
        self.check_accepted(part)
        return Made(self.converter.name, is_large=True)

    def converted(self, image, room, part):
        """The converter makes a flat TIFF of the image, and texmake the texture of that."""
        if not self.converter or not self.options.convert:
            raise self.needs_converter(image.path)
        if image.path.suffix.lower() in (".jpg", ".jpeg") and is_cut_jpeg(image.path):
            raise Failed("the JPEG has no end mark: it was cut short. What helps: copy it again")
        flat = room / "flat.tif"
        try:
            clamped = self.converter.flat(image.path, flat)
        except NotConverted as error:
            raise self.not_converted(error, flat, image.size) from error
        status, said = self.texmake(room, flat.name, part)
        if status == TOO_LARGE:
            made = self.with_levels(flat, part, self.options.bits, tiff_facts(flat))
            return made._replace(clamped=clamped)
        if status == MADE:
            self.check_size(flat, part)
            return Made(f"{self.converter.name} and texmake", clamped)
        if status == BAD_FILE:
            raise Failed(f"converted, it is still refused: {fault(file_fault(flat))[0]}. What helps: "
                         f"{fault(file_fault(flat))[1]}")
        raise self.failed(status, said, flat, part)

    def check_accepted(self, part):
        if numbers := file_fault(part):
            raise Failed(f"{self.converter.name} made a file that the cache refuses: {fault(numbers)[0]}")

    def not_converted(self, error, part, needed):
        written = part.stat().st_size if part.exists() else 0
        if self.is_full(needed - written):
            return self.full(needed)
        return Failed(f"{error}. What helps: export it again, or another --converter")

    def is_full(self, needed):
        return free_bytes(self.options.dest) < max(needed, 65536)

    def full(self, needed):
        return DiskFull(f"the disk is full: {size_text(needed)} are needed, and "
                        f"{size_text(free_bytes(self.options.dest))} are free in {shown(str(self.options.dest))}")

    def failed(self, status, said, path, part):
        """What a status of texmake means that ends the work on an image."""
        if status in (NOT_WRITTEN, TOO_LONG):
            needed = texture_bytes(tiff_facts(path), self.options.tile)
            if status == NOT_WRITTEN and self.is_full(needed - part.stat().st_size):
                return self.full(needed)
            if status == TOO_LONG:
                return Failed(f"the texture needs {size_text(needed)}, and the limit of a file's size (ulimit -f) is "
                              "lower")
            return Failed(f"the texture needs {size_text(needed)}, and could not be written: the disk has an error, or "
                          "a quota is used up")
        if status == CHANGED:
            return Failed("it was replaced while its texture was made. What helps: run prepare.py again")
        if status == NO_MEMORY:
            return Failed("out of memory. What helps: fewer --jobs")
        ended = f"texmake was ended by signal {-status}" if status < 0 else f"texmake ended with status {status}"
        return Failed(f"{ended}: {first_line(said)}" if said.strip() else ended)

    def failed_to_write(self, error, image, part):
        if error.errno in (errno.ENOSPC, errno.EDQUOT):
            return self.full(self.needed(image))
        return Failed(f"{shown(str(error.filename or part))}: {error.strerror}")

    def needed(self, image):
        """The bytes of the texture, as far as they are known before it is made."""
        try:
            if is_tiff(image.path):
                return texture_bytes(tiff_facts(image.path), self.options.tile)
        except (OSError, Fault):
            pass
        return image.size


def is_cut_jpeg(path):
    """Whether no end mark follows the last scan of a JPEG; readers fill up with grey then, and say nothing."""
    data = path.read_bytes()
    return data.rfind(b"\xff\xd9") < data.rfind(b"\xff\xda")
