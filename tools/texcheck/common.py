"""How the checks run a program, and what they do if something that they need is missing."""
import contextlib
import subprocess
import sys
from pathlib import Path

from texcheck.sources import TOP, installed


class Missing(Exception):
    """A program, a library or a package that a check needs is not there; the text says which, and what helps."""


class NoToolchain(Missing):
    """`rt` is not on the path, or does not answer."""


class NotBuilt(Missing):
    """A build failed; the text says why."""


def said(words, given=b"", seconds=None, **more):
    """The status of a program, and what it says on both outputs. It is asked to end if this script has to."""
    inputs = {"stdin": subprocess.PIPE} if given else {"stdin": subprocess.DEVNULL}
    with subprocess.Popen([str(it) for it in words], stdout=subprocess.PIPE, stderr=subprocess.STDOUT, **inputs,
                          **more) as child:
        try:
            out = child.communicate(given or None, timeout=seconds)[0]
        except subprocess.TimeoutExpired:
            child.kill()
            return 124, f"no end after {seconds} s"
        except BaseException:
            child.terminate()
            with contextlib.suppress(subprocess.TimeoutExpired):
                child.wait(timeout=10)
            raise
    return child.returncode, out.decode(errors="replace")


def add_program(parser, name, option="--program"):
    parser.add_argument(option, type=Path, metavar="FILE",
                        help=f"the program {name}; else the proved one if it is up to date, or an unproved build")


def program_of(args, name, option="program"):
    """The program that a check runs."""
    given = getattr(args, option)
    if given and not given.is_file():
        raise Missing(f"there is no program {given}; ./build {name} builds it")
    found = given or installed(name)
    if not found:
        # an installed tree does not have this module
        from texcheck.unproved import usual
        found = usual(name)
    return found.resolve()


def debian_python():
    """The Python for which Debian's packages are installed; the one on the path may be another."""
    return "/usr/bin/python3" if Path("/usr/bin/python3").is_file() else sys.executable


def lacking_module(*names):
    """The first of these modules that Debian's Python does not have, in words; None if it has all."""
    return next((f"Python's {it}" for it in names if said([debian_python(), "-c", f"import {it}"])[0]), None)


class Skips:
    """What a check does if a package of the system is not installed: it fails, or with --skip-missing it prints what it
    skips. (A program or library of this repository is never skipped: that is Missing.)"""

    def __init__(self, args):
        self.may, self.failed = args.skip_missing, 0

    @staticmethod
    def add_argument(parser):
        parser.add_argument("--skip-missing", action="store_true",
                            help="skip what needs a package that is not installed, in place of failing")

    def lacks(self, what, step):
        """Whether `what` is missing, so that the step cannot run. `what` is None if nothing is missing."""
        if what:
            self.failed += not self.may
            print(f"{'skipped' if self.may else 'failed'}: {step}: {what} is not installed; tools/setup installs it",
                  flush=True)
        return bool(what)


def tool(main):
    """Runs one of the tools for people, and prints what is missing."""
    try:
        status = main()
    except Missing as error:
        status = f"{Path(sys.argv[0]).name}: {error}"
    sys.exit(status)


def forwarded(*words, program=False):
    """Runs the subcommand of tools/check that replaced a script. With `program` the first argument of the script may be
    the program."""
    from texcheck.entry import main
    given = sys.argv[1:]
    raise SystemExit(main([*words, *(["--program"] if program and given and given[0][:1] != "-" else []), *given]))
