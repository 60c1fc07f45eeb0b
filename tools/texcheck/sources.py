"""Which crates a program is made of, and whether a built program is up to date."""
import hashlib
import shutil
from pathlib import Path

TOP = Path(__file__).resolve().parents[2]


def layers():
    """The headings of crates.txt. Each has its crates, and each of them the crates that it uses."""
    found = []
    for line in (TOP / "crates.txt").read_text(encoding="utf-8").splitlines():
        if line.startswith("#"):
            found.append((line.lstrip("# "), {}))
        name, colon, below = line.split("#")[0].partition(":")
        if colon:
            found[-1][1][name.split()[0]] = below.split()
    return found


def dependencies():
    """The crates of the repository, each with the crates that it uses."""
    return {name: below for _, crates in layers() for name, below in crates.items()}


def crates_below(name):
    """A crate and all crates that it uses, directly or not; each comes after those that it uses."""
    below, found = dependencies(), []

    def add(crate):
        for it in below[crate]:
            if it in below and it not in found:
                add(it)
        found.append(crate)

    add(name)
    return found


def files_of(name, parts, alone=False):
    """The source files of a crate and, unless `alone`, of all crates that it uses."""
    return [it for crate in ([name] if alone else crates_below(name)) for part in parts
            for it in sorted((TOP / "crates" / crate / part).rglob("*.*"))]


def copied(name, to, parts):
    """Makes a repository of a crate and all that it uses, with copies of these folders of each."""
    crates = set(crates_below(name))
    for part in (TOP / "crates" / crate / it for crate in crates for it in parts):
        if part.is_dir():
            shutil.copytree(part, to / part.relative_to(TOP))
    lines = (TOP / "crates.txt").read_text(encoding="utf-8").splitlines(keepends=True)
    lines = [it for it in lines if set(it.split(":")[0].split()) & crates]
    (to / "crates.txt").write_text("".join(lines), encoding="utf-8")
    shutil.copy(TOP / "HANDLES", to / "HANDLES")
    # where `rt` stops to look for crates.txt
    (to / ".git").mkdir()


def sum_of(name):
    """A checksum of everything that an unproved build reads, the build script included. (It reads no proofs.)"""
    found = hashlib.sha256(Path(__file__).with_name("unproved.py").read_bytes())
    for it in files_of(name, ("src", "specs")):
        found.update(f"{it.relative_to(TOP)} {it.stat().st_size}\n".encode())
        found.update(it.read_bytes())
    return found.hexdigest()


def is_current(made, name):
    """Whether something was made of a crate, and no source of it has changed since."""
    files = [TOP / "crates.txt", *files_of(name, ("src", "specs", "proofs"))]
    return made.exists() and made.stat().st_mtime >= max(it.stat().st_mtime for it in files)


def proved(name):
    """The place of the proved program or library; None if it was not built or a source has changed since."""
    out = TOP / "crates" / name / "out"
    return next((it for it in (out / name, out / f"lib{name}.a") if is_current(it, name)), None)


def installed(name):
    """The place of a program in an installed tree, in a folder that says whether it is proved; None in the repository."""
    return next((it for it in (TOP / "proved" / name, TOP / "unproved" / name) if it.is_file()), None)


def version_text(is_proved):
    """The version of what is built from these sources. Nobody is to take an unproved build for a proved one."""
    return (TOP / "VERSION").read_text(encoding="ascii").strip() + ("" if is_proved else "+unproved")


def is_proved_by_ci(name):
    """Whether `rt ci` has proved a library for C since its sources changed. It does not link the library, but makes the
    folder `out` anew. (It does so too if the proof fails, but then .ci/run ends.)"""
    return is_current(TOP / "crates" / name / "out", name)
