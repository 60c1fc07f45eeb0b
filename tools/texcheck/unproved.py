"""Builds a program or the library for C without a proof, in about a minute, and leaves it in out/unproved.

`rt try` compiles a program, runs it once and keeps nothing. So it is called from a folder of links to the toolchain in
which one tool is replaced by a script that keeps its input.

The fast build is optimised (-O2) and has no address sanitizer. Overflow, index and other checks belong to the program
and stay. The build with --checked is what `rt try` runs: at -O0, with the sanitizer, and some 200 times as slow. Builds
are kept until a source changes.
"""
import fcntl
import os
import re
import shutil
import sys
import tempfile
from pathlib import Path

from texcheck.common import TOP, NotBuilt, NoToolchain, said
from texcheck.sources import copied, proved, sum_of

HELP = "build programs, or the library for C, without a proof, in out/unproved"
PROGRAMS = ("texcache", "texsample", "texmake")
LIBRARY = "tex_c"
OUT = TOP / "out" / "unproved"

# The compiler's last call has the whole program as one module of LLVM, with the sanitizer's option.
CLANG = """#!/bin/sh
case " $* " in
  *" -fsanitize=address "*) cp module.bc '{kept}' && printf '%s\\n' "$@" > '{kept}.args'; exit 1 ;;
esac
exec '{real}' "$@"
"""
TESTS = """#!/bin/sh
for word; do
  shift
  case $word in
    -O0) word=-O1 ;;
    -fsanitize=address) continue ;;
  esac
  set -- "$@" "$word"
done
exec '{real}' "$@"
"""
LINKER = """#!/bin/sh
'{real}' "$@" && cp program '{kept}'
exit 1
"""

# How a library is tried: a test that calls all its exports, so that they are compiled. It never runs.
TRIED = """
fn any<T>() -> T {{
    unsafe {{ std::ptr::read(std::ptr::null_mut::<T>()) }}
}}

#[test]
fn calls_all() -> Result<(), ()> {{
    {calls}
    Ok(())
}}
"""
EXPORT = re.compile(r'#\[unsafe\(no_mangle\)\]\s*pub extern "C" fn (\w+)\(([^)]*)\)')
# structs of one pointer: C and Rattle both hand them over as that pointer
BY_POINTER = ("Held", "Room")


def kit():
    """The folder of the toolchain."""
    try:
        status, text = said(["rt", "doc"])
        if status == 0:
            return Path(text.strip()).parent
    except OSError:
        pass
    raise NoToolchain("Rattle's toolchain is needed, and its command rt was not found or failed: put the "
                      "toolchain's bin folder on the path")


def linked(real, to, tool, script, kept=None):
    """A folder of links to the toolchain, with copies of `rt`, and the script in place of one tool."""
    for part in (real, real / "bin", real / "toolchain", real / "toolchain" / "bin"):
        at = to / part.relative_to(real)
        at.mkdir()
        for it in part.iterdir():
            if it.name not in ("bin", "toolchain"):
                (at / it.name).symlink_to(it)
    # `rt` takes the folder that it lies in for the toolchain
    for name in ("rt", "rtlib.py"):
        (to / "bin" / name).unlink()
        shutil.copy(real / "bin" / name, to / "bin" / name)
    # and has the prover look for reserved names meanwhile, which helps nobody here
    ours = script.format(real=real / "toolchain" / "bin" / tool, kept=kept)
    for place, text in ((to / "bin" / "rattle", "#!/bin/sh\n"), (to / "toolchain" / "bin" / tool, ours)):
        place.unlink()
        place.write_text(text, encoding="utf-8")
        place.chmod(0o755)


def try_tests(crate, is_checked):
    """What `rt try --test` says of a crate, each test within ten minutes. Its build is optimised, unless it is to be
    checked: then it has the address sanitizer, and takes some three times as long."""
    words = ["try", "--test", "--seconds", "600"]
    with tempfile.TemporaryDirectory() as room:
        if is_checked:
            return said(["rt", *words], cwd=TOP / "crates" / crate)
        linked(kit(), Path(room) / "kit", "clang", TESTS)
        return said([Path(room) / "kit" / "bin" / "rt", *words], cwd=TOP / "crates" / crate)


def exports_of(name):
    """The functions that a library exports: the file of each, its name, and the types of its parameters."""
    for file in sorted((TOP / "crates" / name / "src").glob("*.rt")):
        for function, parameters in EXPORT.findall(file.read_text(encoding="utf-8")):
            types = [it.partition(":")[2].strip() for it in parameters.split(",") if it.strip()]
            yield file.stem, function, types


def tried(name, to):
    """A copy of the crate, in which a library has a test that calls all its exports."""
    to.mkdir()
    copied(name, to, ("src", "specs"))
    if name == LIBRARY:
        calls = [f"let _ = crate::{file}::{function}({', '.join(['any()'] * len(types))});"
                 for file, function, types in exports_of(name)]
        with open(to / "crates" / name / "src" / "lib.rt", "a", encoding="utf-8") as root:
            root.write(TRIED.format(calls="\n    ".join(calls)))
    return to / "crates" / name


def with_exports(module, name):
    """The module of a library, in LLVM's text: its exports get the names that C calls, and `main` gets none."""
    module = module.replace("define i32 @main(", "define internal i32 @unused(")
    for file, function, types in exports_of(name):
        other = [it for it in types if it[0].isupper() and it not in (*BY_POINTER, "Global")]
        if other:
            raise NotBuilt(f"{function}: it is not known how C hands over {other}")
        inner = f'@"{name}::{file}::{function}"'
        module = re.sub(rf"^define internal (.*{re.escape(inner)})", r"define \1", module, flags=re.M)
        module = module.replace(inner, f"@{function}")
    return module


def called(*words, **more):
    status, text = said(words, **more)
    if status:
        raise NotBuilt(text[-2000:])


def compiled(real, name, room, module):
    """The program, or the library, of the module that was kept."""
    flags = [it for it in (room / "kept.args").read_text(encoding="utf-8").splitlines()
             if it not in ("-O0", "-fsanitize=address")]
    flags = flags[:flags.index("-c")]
    made, clang = room / f"{name}.o", [real / "toolchain" / "bin" / "clang"]
    if name == LIBRARY:
        text = room / "module.ll"
        called(*clang, *flags, "-S", "-emit-llvm", "-O0", "-Xclang", "-disable-llvm-passes", "-x", "ir", module,
               "-o", text)
        text.write_text(with_exports(text.read_text(encoding="utf-8"), name), encoding="utf-8")
        module = text
    called(*clang, *flags, "-O2", "-fPIC" if name == LIBRARY else "-fPIE", "-c", "-x", "ir", module, "-o", made)
    if name == LIBRARY:
        called(real / "toolchain" / "bin" / "llvm-ar", "rcs", room / "made", made)
    else:
        called(real / "bin" / "rattle-link", "--target", "x86_64-unknown-linux-gnu", "--toolchain",
               real / "toolchain", "-o", room / "made", made, *(real / "c" / it for it in ("libos_c.a", "liblibc_c.a")))
    return room / "made"


def made(real, name, is_checked, room):
    """Builds the program, or the library, in a folder, and returns its place there."""
    kept = room / "kept"
    tool, script = ("ld.lld", LINKER) if is_checked else ("clang", CLANG)
    linked(real, room / "kit", tool, script, kept)
    crate = tried(name, room / "repository")
    words = [room / "kit" / "bin" / "rt", "try", "--steps", "1", "--seconds", "1"]
    _, text = said([*words, "--test"] if name == LIBRARY else words, cwd=crate)
    if not kept.is_file():
        raise NotBuilt(text[-2000:])
    return kept if is_checked else compiled(real, name, room, kept)


def build(name, is_checked=False):
    """The place of the unproved program or library, which is built if a source has changed since it was."""
    place = OUT / ("checked" if is_checked else "fast") / (f"lib{name}.a" if name == LIBRARY else name)
    stamp = place.with_suffix(".sum")
    is_kept = lambda: place.is_file() and stamp.is_file() and stamp.read_text(encoding="ascii") == sum_of(name)
    if is_kept():
        return place
    real = kit()
    place.parent.mkdir(parents=True, exist_ok=True)
    with open(place.with_suffix(".lock"), "w", encoding="ascii") as lock:
        try:
            fcntl.flock(lock, fcntl.LOCK_EX | fcntl.LOCK_NB)
        except OSError:
            print(f"{name}: waiting for another build of it", file=sys.stderr, flush=True)
            fcntl.flock(lock, fcntl.LOCK_EX)
        if is_kept():
            return place
        print(f"{name}: building it unproved, which takes about a minute", file=sys.stderr, flush=True)
        now = sum_of(name)
        # not beside the program: no source may stand in the repository but in its crates
        with tempfile.TemporaryDirectory() as room:
            part = shutil.copy(made(real, name, is_checked, Path(room)), place.with_suffix(".part"))
        os.chmod(part, 0o755)
        stamp.unlink(missing_ok=True)
        os.replace(part, place)
        stamp.write_text(now, encoding="ascii")
    return place


def usual(name):
    """The program that a tool runs: the proved one if it is up to date, or else the fast unproved one."""
    return proved(name) or build(name)


def add_arguments(parser):
    parser.add_argument("names", nargs="*", metavar="NAME", default=PROGRAMS,
                        help=f"{', '.join(PROGRAMS)}, or {LIBRARY}, the library for C; the programs if none is given")
    parser.add_argument("--checked", action="store_true", help="the slow build, with the address sanitizer")


def run(args):
    for name in args.names:
        if name not in (*PROGRAMS, LIBRARY) or args.checked and name == LIBRARY:
            raise NotBuilt(f"{name}: there is no such build")
        print(os.path.relpath(build(name, args.checked)))
    return 0
