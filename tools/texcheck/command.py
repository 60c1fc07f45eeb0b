"""The commands ./texcache and ./texmake: they run the programs and say on standard error what went wrong.

What a program prints and its status are handed on as they are. The commands' own failures have statuses of
their own: 125 there is no toolchain, 126 the program could not be built, 127 interrupted.
"""
import mmap
import os
import shlex
import signal
import stat
import subprocess
import sys
import threading
from pathlib import Path

from texcheck import words
from texcheck.common import NotBuilt, NoToolchain
from texcheck.meanings import fault
from texcheck.plain_reader import Fault, pages_of
from texcheck.sources import installed, proved, version_text

NO_TOOLCHAIN, NOT_BUILT, INTERRUPTED = 125, 126, 127
# the file by which the list comes in
LIST = 3


def usage(name):
    return Path(__file__).with_name(f"{name}.txt").read_text(encoding="ascii")


def say(name, text):
    print(f"{name}: {text}", file=sys.stderr, flush=True)


def program(name):
    """The installed program, or the proved one if it is up to date, or else an unproved build. If the program is not
    proved, a line on stderr says so."""
    found = installed(name)
    if found:
        if found.parent.name != "proved":
            say(name, "this program is not proved")
        return found
    found = proved(name)
    if not found:
        # an installed tree does not have this module
        from texcheck.unproved import build
        found = build(name)
        say(name, f"this program is not proved; ./build {name} proves it")
    return found


def version(name):
    """The version of the repository; of an installed program it says whether that is proved."""
    found = installed(name)
    return version_text(not found or found.parent.name == "proved")


class Given:
    """The list on standard input. If it comes through a pipe, a copy is kept, so that errors in it can be explained."""

    def __init__(self):
        self.kept, self.command = bytearray(), []
        try:
            mode = os.fstat(LIST).st_mode
            self.is_file = stat.S_ISREG(mode)
            self.is_copied = stat.S_ISFIFO(mode) or stat.S_ISSOCK(mode) or os.isatty(LIST)
            self.start = os.lseek(LIST, 0, os.SEEK_CUR) if self.is_file else 0
            self.file = subprocess.PIPE if self.is_copied else LIST
        except OSError:
            # a standard input that is closed stays closed
            self.is_file, self.is_copied, self.file = False, False, subprocess.DEVNULL
            self.command = ["sh", "-c", 'exec "$@" <&-', "sh"]

    def run(self, command):
        """Runs a program that reads the list, and returns its status."""
        child = subprocess.Popen([*self.command, *command], stdin=self.file, bufsize=0)
        if self.is_copied:
            threading.Thread(target=self.copy, args=(child.stdin,), daemon=True).start()
        try:
            return child.wait()
        except BaseException:
            child.terminate()
            child.wait()
            raise

    def copy(self, to):
        """Copies standard input to the program and keeps it."""
        try:
            while part := os.read(LIST, 65536):
                if len(self.kept) <= words.TOP_OF_LIST:
                    self.kept += part
                to.write(part)
        except OSError:
            pass  # the program ended before it had read all
        finally:
            to.close()

    def again(self, command):
        """Runs the program once more on the same list, and returns the words that it prints."""
        file = {"input": self.data()} if self.is_file or self.is_copied else {"stdin": self.file}
        done = subprocess.run([*self.command, *command], stdout=subprocess.PIPE, check=False, **file)
        return done.stdout.decode(errors="replace").split()

    def data(self):
        return os.pread(LIST, words.TOP_OF_LIST + 1, self.start) if self.is_file else bytes(self.kept)

    def fault(self):
        """Why the list cannot be read."""
        try:
            os.read(LIST, 0)
            return "it could not be read"
        except OSError as error:
            return error.strerror


def of_folder(folder):
    """Why a folder cannot be read, in the system's own words."""
    try:
        os.listdir(folder)
    except OSError as error:
        return f"{folder}: {error.strerror}"
    return f"{folder}: the folder could not be read"


def explained(command, arguments, given, status):
    """What a status of texcache means. The program is run again, because its first output went to the user."""
    if status == 5:
        return "the answers could not be written"
    if status == 6:
        return "out of memory"
    folders, wrong = words.read_arguments(arguments)
    if status == 2:
        return f"{wrong or 'the arguments are not accepted'}\ntexcache --help shows all options"
    said = given.again(command)
    if said[:2] == ["bad", "list"]:
        return words.bad_list(given.data(), int(said[2]), int(said[3]))
    if said[:1] == ["folder"]:
        return of_folder(folders[0])
    if said[:1] == ["too"]:
        return f"{folders[0]}: the folder has more than 4096 files"
    return f"the list on standard input: {given.fault()}"


def run_texcache(arguments):
    if not arguments:
        print(usage("texcache"), end="", file=sys.stderr)
        return 2
    command, given = [program("texcache"), *arguments], Given()
    status = given.run(command)
    if status < 0:
        return status
    if status > 1:
        say("texcache", explained(command, arguments, given, status))
    return status


def of_file(path):
    """Why texmake refused a file, and what helps."""
    try:
        with open(path, "rb") as file:
            size = os.fstat(file.fileno()).st_size
            pages_of(mmap.mmap(file.fileno(), 0, access=mmap.ACCESS_READ) if size else b"")
    except OSError as error:
        return error.strerror
    except Fault as found:
        means, helps = fault(found.args)
        return f"{means}. What helps: {helps.replace('{name}', shlex.quote(str(path)))}" if helps else means
    return "it is accepted now, so it was replaced in the meantime; try again"


def of_status(status, folder, name):
    """What a status of texmake means."""
    path = Path(folder, name)
    if status == 4:
        return of_folder(folder)
    if status == 8:
        return f"{path}: {of_file(path)}"
    return {
        5: "the texture could not be written", 6: f"{path}: out of memory",
        7: f"{path}: there is no such file in the folder",
        9: f"{path}: the image has more than 67108864 samples; make it smaller first, as by oiiotool --resize",
        10: f"{path}: the file was changed while it was read; try again",
        11: f"{folder}: the folder has more than 4096 files",
    }.get(status, f"status {status}")


def bad_texmake(given):
    """What is wrong with FOLDER NAME [T]; None if nothing is."""
    if len(given) < 2:
        return "a folder and the name of a file in it are expected: texmake FOLDER NAME [T] [-o FILE]"
    if len(given) > 3:
        return f"at most FOLDER NAME T are expected, and there are {len(given)} arguments"
    option = next((it for it in given[:2] if it.startswith("-")), None)
    if option:
        return f"{option}: there is no such option"
    side = given[2] if len(given) == 3 else "64"
    if not (side.isascii() and side.isdigit() and len(side) <= 10 and int(side) in range(16, 257, 16)):
        return f"T is {side!r}; expected is a multiple of 16 from 16 to 256"
    return None


def run_texmake(arguments):
    given, target = list(arguments), None
    if "-o" in given:
        at = given.index("-o")
        if at + 1 == len(given):
            say("texmake", "-o: the name of a file is missing")
            return 2
        target = Path(given[at + 1])
        del given[at:at + 2]
    wrong = bad_texmake(given)
    if wrong:
        say("texmake", f"{wrong}\ntexmake --help shows how it is used")
        return 2
    command = [program("texmake"), *given]
    if not target:
        status = subprocess.run(command, check=False).returncode
    else:
        part = target.with_name(f".{target.name}.{os.getpid()}.part")
        try:
            with open(part, "wb") as out:
                status = subprocess.run(command, stdout=out, check=False).returncode
            if status == 0:
                part.replace(target)
        except OSError as error:
            say("texmake", f"{target}: {error.strerror}")
            return 5
        finally:
            part.unlink(missing_ok=True)
    if status > 0:
        say("texmake", of_status(status, *given[:2]))
    return status


def stopped(_number, _frame):
    raise KeyboardInterrupt


def main(name, arguments):
    """Runs a command, and gives its status."""
    run = {"texcache": run_texcache, "texmake": run_texmake}[name]
    options = arguments[:arguments.index("--")] if "--" in arguments else arguments
    if "--help" in options or "-h" in options:
        print(usage(name), end="")
        return 0
    if "--version" in options:
        print(name, version(name))
        return 0
    signal.signal(signal.SIGTERM, stopped)
    try:
        status = run(arguments)
    except NoToolchain as error:
        say(name, error)
        return NO_TOOLCHAIN
    except (NotBuilt, OSError) as error:
        say(name, f"the program could not be built or started: {error}")
        return NOT_BUILT
    except KeyboardInterrupt:
        say(name, "interrupted")
        return INTERRUPTED
    if status < 0:
        # as a shell says it of a program that a signal ended
        if -status != signal.SIGPIPE:
            say(name, f"the program was ended by signal {-status}")
        return 128 - status
    return status
