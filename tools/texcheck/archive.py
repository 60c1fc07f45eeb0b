"""Makes libtexcache.a, the one archive that programs link: the library tex_c, the C part in src/c, the toolchain's C part
and the version.

The machine's C compiler compiles src/c, because the toolchain's clang comes without the headers of C. The toolchain's
archiver makes the archive. The same compiler and the same parts give the same bytes.
"""
import os
import shutil
import tempfile
from pathlib import Path

from texcheck.common import TOP, Missing
from texcheck.sources import proved, version_text
from texcheck.unproved import LIBRARY, called, kit, usual

ARCHIVE = "libtexcache.a"
SOURCES = TOP / "src" / "c"
# C99 as POSIX has it; warnings are errors in tools/check embedding alone. A call that ends with one of pthreads must not
# jump there, or ThreadSanitizer takes it for one of another library, which tsan.supp does not name.
C_FLAGS = ("-std=c99", "-fPIC", "-fno-optimize-sibling-calls", f"-I{TOP / 'include'}", f"-I{SOURCES}")


def compiler():
    """The C compiler for the C part and the shared library."""
    found = shutil.which("cc") or shutil.which("gcc")
    if not found:
        raise Missing("a C compiler is needed for the C part of the library; tools/setup installs it")
    return found


def c_files():
    return sorted(SOURCES.glob("*.c"))


def parts_of(library):
    """The files that an archive is made of, beside the toolchain's tools."""
    headers = (*SOURCES.glob("*.h"), *(TOP / "include").glob("*.h"))
    return library, kit() / "c" / "liblibc_c.a", TOP / "VERSION", *c_files(), *headers


def is_made(archive, library):
    newest = max(it.stat().st_mtime for it in (*parts_of(library), Path(__file__)))
    return archive.is_file() and archive.stat().st_mtime >= newest


def archive_of(library=None):
    """The archive of a library, beside it; if none is given, of the proved one if it is up to date, or else of an
    unproved build. An archive is its own."""
    library = (library or usual(LIBRARY)).resolve()
    archive = library.with_name(ARCHIVE)
    if library != archive and not is_made(archive, library):
        make(library, archive, version_text(library == proved(LIBRARY)))
    return archive


def defines(version):
    return f'-DTEXCACHE_LIBRARY_VERSION="{version}"'


def compiled(version, room):
    """The objects of the C part."""
    made = [room / f"{it.stem}.o" for it in c_files()]
    for source, target in zip(c_files(), made):
        called(compiler(), "-O2", *C_FLAGS, f"-ffile-prefix-map={TOP}=.", defines(version), "-c", source, "-o", target)
    return made


def make(library, archive, version):
    with tempfile.TemporaryDirectory(dir=archive.parent) as room:
        part = Path(room) / ARCHIVE
        # the members of the archives, with fixed times and owners
        called(kit() / "toolchain" / "bin" / "llvm-ar", "qcLsD", part, *parts_of(library)[:2],
               *compiled(version, Path(room)))
        os.replace(part, archive)
