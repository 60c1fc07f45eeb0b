"""What tools/prepare.py does if something is wrong: bad input, Ctrl-C, a killed run, no space."""
import os
import re
import resource
import shutil
import signal
import subprocess
from pathlib import Path

from texcheck import textures
from texcheck.common import TOP, debian_python
from texcheck.prepare_case import MARK, SCRIPT, check_accepted, counts, sums, tree, whole
from texcheck.prepare_images import plain

# a user who is not root, for folders that may not be written
NOBODY = 65534


def replacing(case, change):
    """A texmake that first runs a command, as if someone did that meanwhile."""
    path = case.room / f"texmake-{len(list(case.room.iterdir()))}"
    path.write_text(f"#!/bin/sh\n{change}\nexec '{case.program}' \"$@\"\n", encoding="utf-8")
    path.chmod(0o755)
    return path


def check_bad_input(case):
    """Each bad input gets an error in words, and nothing is overwritten or lost."""
    source, dest = case.folder("bad") / "in", case.room / "bad" / "out"
    source.mkdir()
    (source / "a.tif").write_bytes(plain())
    case.expect_run("no source", 2, "there is no folder", case.room / "none", dest)
    case.expect_run("inside", 2, "the destination is inside the source", source, source / "out")
    case.expect_run("around", 2, "the source is inside the destination", source, source.parent)
    case.expect_run("the repository", 2, "inside the repository", source, TOP / "textures")
    case.expect_run("a file", 2, "is not a folder", source, source / ".." / ".." / "bad" / "in" / "a.tif")
    case.expect(not (TOP / "textures").exists() and not dest.exists(), "a refused run made a folder")
    for words, text in ((["--tile", "24"], "multiple of 16"), (["--jobs", "0"], "at least 1")):
        case.expect_run(text, 2, text, source, dest, *words)
    dest.mkdir()
    (dest / "a.tif").write_bytes(b"mine")
    case.expect_run("a file of the user", 1, "was not made by prepare.py, and is not replaced", source, dest)
    case.expect((dest / "a.tif").read_bytes() == b"mine", "a file of the user was replaced")
    (dest / "a.tif").unlink()
    for name in ("b\nc.tif", b"d\xff.tif", "-e f.tif", "g.tif", "sub/h.tif", "sub_h.tif", "i'j.tif"):
        path = Path(os.fsdecode(os.path.join(os.fsencode(source), os.fsencode(name))))
        path.parent.mkdir(exist_ok=True)
        path.write_bytes(plain())
    (source / "g.tiff").write_bytes(plain())
    (source / "g.png").write_bytes(b"no image")
    (source / "cut.tif").write_bytes(plain()[:-1])
    text = case.expect_run("names", 1, "11 images: 4 made, 0 up to date, 7 failed", source, dest, "--flat")
    for part in (r"'b\nc.tif': its name has a line break", r"'d\udcff.tif': its name is not UTF-8",
                 "g.png: g.tif would make the same texture, g.tif", "g.tif: g.png would make the same texture",
                 "sub/h.tif: sub_h.tif would make the same texture", "cut.tif: strip or tile 2 of level 0 is not completely"):
        case.expect(part in text, f"bad input: {part!r}", text)
    names = ["-e f.tif", "a.tif", "g.tiff", "i'j.tif"]
    case.expect(sorted(tree(dest)) == names, "what is made of odd names", sorted(tree(dest)))
    check_accepted(case, source, dest, names)
    before = tree(dest)
    swapped = f"cp '{source}/a.tif' '{case.room}/b' && cat '{case.room}/b' >> '{source}/a.tif'"
    (source / "a.tif").write_bytes(plain(depth=16))
    case.expect_run("a replaced image", 1, "it was replaced while its texture was made", source, dest, "--only", "a.tif",
                    program=replacing(case, swapped))
    case.expect(tree(dest) == before, "a replaced image changed a texture, or left a file")
    (source / "a.tif").write_bytes(plain(depth=16))
    case.expect_run("an image that goes", 1, "it was taken away", source, dest, "--only", "a.tif",
                    program=replacing(case, f"cp -r '{source}' '{source}.old'; (sleep 0.01; rm '{source}/a.tif')&\nsleep 0.2"
                                      f"\nset -- '{source}.old' a.tif 64"))
    case.expect(tree(dest) == before, "an image that went changed a texture")


def check_read_only(case):
    """A destination that may not be written."""
    source, dest = case.folder("read only") / "in", case.room / "read only" / "out"
    source.mkdir()
    (source / "a.tif").write_bytes(plain())
    dest.mkdir()
    dest.chmod(0o555)
    for it in (case.room, source.parent):
        it.chmod(0o755)
    program = case.room / "texmake of all"
    shutil.copy(case.program, program)
    words = {"user": NOBODY} if os.getuid() == 0 else {}
    case.expect_run("a read-only destination", 1, "Permission denied", source, dest, program=program, **words)
    case.expect(not tree(dest), "something was written there")
    if os.getuid() == 0:
        (source / "a.tif").chmod(0)
        dest.chmod(0o777)
        case.expect_run("an image that may not be read", 1, "cannot be read: Permission denied", source, dest,
                        program=program, **words)


def many(folder, count, size):
    """Images of this many bytes, one row of texels each 1,000 bytes."""
    folder.mkdir(parents=True)
    first = plain(256, max(1, size // 768))
    for number in range(count):
        (folder / f"image{number:04}.tif").write_bytes(first)


def check_interrupted(case, count, size):
    """A run that is ended by Ctrl-C and started again makes each texture once, and then none."""
    source, dest = case.folder("many") / "in", case.room / "many" / "out"
    many(source, count, size)
    command = [debian_python(), SCRIPT, source, dest, "--jobs", "4", "--program", case.program]
    child = subprocess.Popen([str(it) for it in command], stdout=subprocess.PIPE, stderr=subprocess.STDOUT, text=True)
    lines = []
    for line in child.stdout:
        lines.append(line)
        if len(lines) == count // 3:
            child.send_signal(signal.SIGINT)
    status, text = child.wait(), "".join(lines)
    first = sums(dest)
    case.expect(status == 130 and "interrupted; " in text, "Ctrl-C", (status, text[-500:]))
    case.expect(count // 3 <= len(first) < count and all(it[2] for it in first.values()), "parts of files", len(first))
    case.expect([it.name for it in dest.iterdir() if it.name.startswith(".")] == [], "a hidden folder is left")
    text = case.run(source, dest, "--jobs", "4")[1]
    case.expect(counts(text) == (count, count - len(first), len(first), 0), "the second run", text[-300:])
    after = sums(dest)
    case.expect(all(after[it] == first[it] for it in first) and len(after) == count, "a texture was made twice")
    text = case.run(source, dest, "--jobs", "4")[1]
    case.expect(counts(text) == (count, 0, count, 0) and sums(dest) == after, "the third run", text[-300:])
    # (the formulas in Python are slow, and all images are the same)
    some = (source / "image0000.tif").read_bytes()
    wanted = textures.wanted(some, 64)[1] if size <= 100000 else subprocess.run(
        [case.program, source, "image0000.tif"], stdout=subprocess.PIPE, check=True).stdout
    case.expect(all((dest / it).read_bytes().startswith(wanted + MARK) for it in after), "a texture has other bytes")
    return source


def check_killed(case, source):
    """What a killed run leaves is removed by the next one."""
    dest = case.room / "killed"
    left = dest / ".prepare-host-1-x"
    left.mkdir(parents=True)
    (left / "lock").touch()
    (left / "part.tif").write_bytes(b"half")
    case.expect_run("after a killed run", 0, "1 made", source, dest, "--only", "image0000.tif")
    case.expect(not left.exists(), "what a killed run left is still there")


def check_no_space(case, source, is_full):
    """A limit of the size of files, and a small disk: no partial file, and words for what is missing."""
    dest = case.room / "limited"
    limit = lambda: resource.setrlimit(resource.RLIMIT_FSIZE, (65536, 65536))
    text = case.expect_run("ulimit -f", 1, "and the limit of a file's size (ulimit -f) is lower", source, dest,
                           preexec_fn=limit)
    case.expect(re.search(r"the texture needs [\d.]+ [KM]iB", text) and not tree(dest), "parts below ulimit -f", text[-300:])
    disk = case.folder("disk")
    if not is_full or subprocess.run(["mount", "-t", "tmpfs", "-o", "size=1m", "none", disk], stderr=subprocess.DEVNULL,
                                     check=False).returncode:
        print("prepare: no small disk was filled" + " (mounting is refused)" * is_full)
        return
    try:
        text = case.expect_run("a full disk", 1, "the disk is full: ", source, disk / "out", "--jobs", "4")
        found = re.search(r"the disk is full: \d+ textures that are not made need some [\d.]+ \wiB, .* free, so "
                          r"[\d.]+ \wiB are missing", text)
        case.expect(found, "what is missing is not said", text[-500:])
        made = tree(disk / "out")
        case.expect(made and all(whole(data) for data, _ in made.values()), "parts on a full disk", list(made))
    finally:
        subprocess.run(["umount", disk], check=True)
