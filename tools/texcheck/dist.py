"""Packs what ./install installs: a tarball that needs no toolchain, and a package of Debian. The same commit gives the
same bytes: names are sorted, and times, owners and modes are fixed.
"""
import gzip
import hashlib
import os
import re
import shutil
import subprocess
import tarfile
import tempfile
from pathlib import Path

from texcheck.common import TOP, Missing, said
from texcheck.sources import version_text
from texcheck.tree import PROGRAMS, SHARED, Parts, lay_out

DIST = "dist"
OUT = TOP / "out" / "dist"
CONTROL = """Package: texcache
Version: {version}
Architecture: amd64
Maintainer: the texcache authors <texcache@localhost>
Depends: libc6 (>= {glibc}), python3 (>= 3.9)
Recommends: libc6-dev
Section: graphics
Priority: optional
Description: texture cache over a folder of TIFF files, with a C library
 Many threads look up textures that are larger than memory, while the files are
 replaced. Every answer names the version of the file that it was read from.
 For local use: /usr/share/doc/texcache/README says why.
"""


def commit_time():
    """The time that every packed file gets: that of the commit."""
    status, text = said(["git", "log", "-1", "--format=%ct"], cwd=TOP)
    return int(os.environ.get("SOURCE_DATE_EPOCH") or (0 if status else text))


def entry(path, name, seconds):
    """A file, link or folder as it stands in the tarball."""
    found = tarfile.TarInfo(name)
    found.mtime, found.mode = seconds, 0o755 if path.is_dir() or os.access(path, os.X_OK) else 0o644
    if path.is_symlink():
        found.type, found.linkname, found.mode = tarfile.SYMTYPE, os.readlink(path), 0o777
    elif path.is_dir():
        found.type = tarfile.DIRTYPE
    else:
        found.size = path.stat().st_size
    return found


def tarball(tree, target, seconds):
    """Packs the tree under its own name. The head of the compressed file has no name and no time."""
    with open(target, "wb") as file, gzip.GzipFile("", "wb", 9, file, mtime=0) as packed, \
            tarfile.open(fileobj=packed, mode="w", format=tarfile.GNU_FORMAT) as tar:
        for path in sorted([tree, *tree.rglob("*")]):
            found = entry(path, str(path.relative_to(tree.parent)), seconds)
            if found.isreg():
                with open(path, "rb") as data:
                    tar.addfile(found, data)
            else:
                tar.addfile(found)


def least_glibc(tree):
    """The oldest C library that has all that the programs and the shared library use."""
    files = [*(it for name in PROGRAMS for it in tree.glob(f"libexec/texcache/*proved/{name}")), tree / "lib" / SHARED]
    found = {it for file in files for it in re.findall(rb"GLIBC_(\d+)\.(\d+)", file.read_bytes())}
    return ".".join(map(str, max((int(a), int(b)) for a, b in found)))


def debian_version(version):
    """The version in Debian's order, in which 1.0.0~rc1 comes before 1.0.0."""
    return version.replace("-", "~", 1)


def package(tree, room, target, version, seconds):
    """Makes a package of Debian of the tree, below /usr."""
    (room / "DEBIAN").mkdir(parents=True)
    shutil.copytree(tree, room / "usr", symlinks=True)
    control = CONTROL.format(version=debian_version(version), glibc=least_glibc(tree))
    (room / "DEBIAN" / "control").write_text(control, encoding="ascii")
    for it in [room, *room.rglob("*")]:
        if it.is_dir():
            it.chmod(0o755)
        os.utime(it, (seconds, seconds), follow_symlinks=False)
    (room / "DEBIAN" / "control").chmod(0o644)
    subprocess.run(["dpkg-deb", "--root-owner-group", "-Zgzip", "--build", room, target], check=True,
                   stdout=subprocess.DEVNULL, env={**os.environ, "SOURCE_DATE_EPOCH": str(seconds)})


def summed(path):
    return f"{hashlib.sha256(path.read_bytes()).hexdigest()}  {os.path.relpath(path)}"


def proved_parts():
    """The library and the programs to pack, all of them proved."""
    parts = Parts(False)
    if parts.unproved():
        raise Missing(f"not proved, or a source has changed since: {', '.join(parts.unproved())}")
    return parts


def dist(parts, out=OUT):
    """Packs everything, and returns what is to be printed: the commit, and the hashes as sha256sum prints them."""
    version, seconds = version_text(not parts.unproved()), commit_time()
    name = f"texcache-{version}-linux-x86_64"
    out.mkdir(parents=True, exist_ok=True)
    with tempfile.TemporaryDirectory() as room:
        tree, made = Path(room) / name, [out / f"{name}.tar.gz"]
        tree.mkdir()
        lay_out(parts, tree)
        tarball(tree, made[0], seconds)
        if shutil.which("dpkg-deb"):
            made.append(out / f"texcache_{debian_version(version)}_amd64.deb")
            package(tree, Path(room) / "package", made[1], version, seconds)
    more = [] if len(made) == 2 else ["no package of Debian is made: dpkg-deb is not installed"]
    return [f"commit {parts.commit}", *map(summed, made), *more]
