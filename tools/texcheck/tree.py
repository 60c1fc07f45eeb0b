"""Lays out what is installed: the library with its headers, both programs with their tools, the Python package, man
pages, documents and examples. All paths in it are relative, so the tree works wherever it lies.
"""
import re
import shutil

from texcheck.archive import ARCHIVE, SOURCES, archive_of, compiler
from texcheck.common import TOP, Missing, said
from texcheck.manuals import manuals
from texcheck.sources import proved, version_text
from texcheck.unproved import LIBRARY, build

PROGRAMS = ("texcache", "texmake")
# what has to be built first
PACKED = (LIBRARY, *PROGRAMS)
SHARED = "libtexcache.so.1"
# the tools for people, which need no toolchain
TOOLS = ("prepare.py", "explain.py", "folder_info.py", "uv.py", "hit_curve.py")
DOCUMENTS = ("INSTALL", "EMBEDDING", "OIIO", "OPTIONS", "SUPPLY", "REQUESTS", "TEXTURES", "PICTURES", "FILTERING", "FORMAT",
             "CACHE", "GLOSSARY")
# what makes a wheel of the Python package
PYTHON = ("pyproject.toml", "setup.py")
# the modules that the wrappers and tools import; none of these needs the toolchain
IMPORT = re.compile(r"^\s*from (texcheck|texprepare)(?:\.(\w+))? import (.+)$", re.M)
LEFT_OUT = ("texcheck.entry", "texcheck.unproved")
README = """texcache {version}: a texture cache over a folder of TIFF files, and its C library.

{state}
Built from commit {commit}
by {toolchain}, and {compiler} for the C part.

bin/ has the programs and the tools, which need Python 3.9 or later. lib/pkgconfig and lib/cmake are for programs that
use the library. lib/texcache/python has the Python package. docs/INSTALL.md and docs/EMBEDDING.md show how to use them.
Links in docs/ that lead out of that folder lead into the source repository.

For local use: do not hand this on. The library and the programs contain code of the Rattle toolchain (its standard
library and liblibc_c.a), for which the toolchain gives no licence. LICENSE is for texcache's own code.
"""


def commit():
    """The commit that is built, and whether something was changed since."""
    status, text = said(["git", "rev-parse", "HEAD"], cwd=TOP)
    if status:
        return "unknown"
    changed = said(["git", "--no-optional-locks", "status", "--porcelain"], cwd=TOP)[1]
    return text.strip() + (" with changes that are not committed" if changed else "")


class Parts:
    """The library and the programs to install, each with its place, and whether it is proved."""

    def __init__(self, may_be_unproved):
        found = {it: proved(it) for it in PACKED}
        if not found[LIBRARY] and not may_be_unproved:
            raise Missing(f"{LIBRARY} is not proved, or a source has changed since: ./build {LIBRARY} proves it, in "
                          "about an hour. With --unproved an unproved build is installed, whose version says so.")
        self.is_proved = {it: bool(place) for it, place in found.items()}
        self.places = {it: place or build(it) for it, place in found.items()}
        self.archive = archive_of(self.places[LIBRARY])
        self.version = version_text(self.is_proved[LIBRARY])
        self.commit, self.toolchain = commit(), said(["rt", "version"])[1].strip()

    def unproved(self):
        """The names of what is not proved."""
        return [it for it, is_proved in self.is_proved.items() if not is_proved]

    def state(self):
        """What is proved, in a sentence."""
        if not self.unproved():
            return "The library and both programs are proved: docs/EMBEDDING.md, \"What is proved\"."
        return f"Not proved: {', '.join(self.unproved())}."


def copied_to(source, target, is_program=False):
    """Copies a file. What it replaces may be in use, so that is removed first."""
    target.parent.mkdir(parents=True, exist_ok=True)
    target.unlink(missing_ok=True)
    shutil.copyfile(source, target)
    target.chmod(0o755 if is_program else 0o644)


def written(text, target):
    target.parent.mkdir(parents=True, exist_ok=True)
    target.write_text(text, encoding="utf-8")
    target.chmod(0o644)


def linked(target, link):
    link.parent.mkdir(parents=True, exist_ok=True)
    link.symlink_to(target)


def filled(name, version):
    """A template of src/c with the version filled in."""
    numbers = re.match(r"[\d.]+", version)[0]
    text = (SOURCES / name).read_text(encoding="utf-8")
    for word, value in (("@VERSION@", version), ("@NUMBERS@", numbers), ("@MAJOR@", numbers.split(".")[0])):
        text = text.replace(word, value)
    return text


def shared(archive, target):
    """Links the objects of the archive to the shared library, which exports the calls of texcache.h and nothing else."""
    target.parent.mkdir(parents=True, exist_ok=True)
    words = [compiler(), "-shared", f"-Wl,-soname,{SHARED}", f"-Wl,--version-script={SOURCES / 'exports.map'}",
             "-Wl,-z,defs", "-Wl,-s", "-o", target, "-Wl,--whole-archive", archive, "-Wl,--no-whole-archive", "-lm",
             "-lpthread"]
    status, text = said(words, cwd=TOP)
    if status:
        raise Missing(f"the shared library could not be built: {text[-2000:]}")
    target.chmod(0o644)


def put_library(parts, to):
    for it in sorted((TOP / "include").iterdir()):
        copied_to(it, to / "include" / it.name)
    copied_to(parts.archive, to / "lib" / ARCHIVE)
    shared(parts.archive, to / "lib" / SHARED)
    written(filled("texcache.pc.in", parts.version), to / "lib" / "pkgconfig" / "texcache.pc")
    cmake = to / "lib" / "cmake" / "texcache"
    copied_to(SOURCES / "texcacheConfig.cmake", cmake / "texcacheConfig.cmake")
    written(filled("texcacheConfigVersion.cmake.in", parts.version), cmake / "texcacheConfigVersion.cmake")
    copied_to(SOURCES / "tsan.supp", to / "share" / "texcache" / "tsan.supp")
    put_python(to / "lib" / "texcache" / "python")


def put_python(to):
    """The Python package, with a link to the library, and what makes a wheel of both."""
    for it in (*sorted((TOP / "python" / "texcache").rglob("*")), *(TOP / "python" / it for it in PYTHON)):
        if it.suffix in (".py", ".typed", ".toml", ".html", ".js", ".css"):
            copied_to(it, to / it.relative_to(TOP / "python"))
    linked(f"../../../{SHARED}", to / "texcache" / "libtexcache.so")


def modules():
    """The modules of tools/ that the wrappers and the tools for people import, directly or not."""
    found, todo = set(), [TOP / "tools" / it for it in ("run_program", *TOOLS)]
    while todo:
        for package, module, names in IMPORT.findall(todo.pop().read_text(encoding="utf-8")):
            for name in [module] if module else re.findall(r"\w+", names):
                place = TOP / "tools" / package / f"{name}.py"
                if f"{package}.{name}" not in LEFT_OUT and place not in found:
                    found.add(place)
                    todo.append(place)
    return found | {it.with_name("__init__.py") for it in found}


def put_programs(parts, to):
    """The wrappers find what lies beside them: VERSION, tools/, and the program in proved/ or unproved/."""
    top = to / "libexec" / "texcache"
    copied_to(TOP / "VERSION", top / "VERSION")
    for name in PROGRAMS:
        copied_to(TOP / name, top / name, True)
        copied_to(parts.places[name], top / ("proved" if parts.is_proved[name] else "unproved") / name, True)
        copied_to(TOP / "tools" / "texcheck" / f"{name}.txt", top / "tools" / "texcheck" / f"{name}.txt")
        linked(f"../libexec/texcache/{name}", to / "bin" / name)
    copied_to(TOP / "tools" / "run_program", top / "tools" / "run_program", True)
    for it in modules():
        copied_to(it, top / it.relative_to(TOP))
    for name in TOOLS:
        copied_to(TOP / "tools" / name, top / "tools" / name, True)
        linked(f"../libexec/texcache/tools/{name}", to / "bin" / name)


def put_documents(parts, to):
    doc = to / "share" / "doc" / "texcache"
    facts = {"version": parts.version, "state": parts.state(), "commit": parts.commit, "toolchain": parts.toolchain,
             "compiler": said([compiler(), "--version"])[1].splitlines()[0]}
    written(README.format(**facts), doc / "README")
    for name in ("LICENSE", "CHANGELOG.md"):
        copied_to(TOP / name, doc / name)
    for name in DOCUMENTS:
        copied_to(TOP / "docs" / f"{name}.md", doc / "docs" / f"{name}.md")
    for it in (*sorted((TOP / "examples" / "lookup").iterdir()), *sorted((TOP / "examples" / "bridge").iterdir())):
        if it.is_file():
            copied_to(it, doc / "examples" / it.name)
    for it in [*sorted((TOP / "demo").glob("*.tif")), TOP / "demo" / "requests.txt", TOP / "demo" / "expected.txt"]:
        copied_to(it, doc / "demo" / it.name)
    for name, text in manuals(parts.version):
        written(text, to / "share" / "man" / f"man{name[-1]}" / name)


def lay_out(parts, to):
    """Makes the tree in an empty folder."""
    put_library(parts, to)
    put_programs(parts, to)
    put_documents(parts, to)
    for it in (to, *to.rglob("*")):
        if it.is_dir() and not it.is_symlink():
            it.chmod(0o755)
