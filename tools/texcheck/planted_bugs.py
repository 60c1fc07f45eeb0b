"""Tries the planted bugs that CI does not try: the edits in crates/NAME/wrong-bodies. The prover must refuse each. Run
it for a crate if its contracts change, and also for the crates above it if one of its definitions changes.

`rt must-fail` tries them in a copy of the working tree, with the libraries that earlier checks built. Printed are the
edits that are still proved, and those that cannot be applied or read. Without names the edits of all crates are tried,
which takes hours.
"""
import re
import shutil
import subprocess
import sys
import tempfile
from pathlib import Path

from texcheck.common import TOP

HELP = "planted bugs that the prover has to refuse, beside those of CI"
FOLDER = "wrong-bodies"


def has_some(name):
    return any((TOP / "crates" / name / FOLDER).glob("*.edit"))


def copied(to):
    """A copy of the repository with these edits in the folder where `rt must-fail` looks."""
    for file in ("crates.txt", "HANDLES"):
        shutil.copy(TOP / file, to / file)
    for crate in (TOP / "crates").iterdir():
        for part in ("src", "specs", "proofs", "out/rlib"):
            if (crate / part).is_dir():
                shutil.copytree(crate / part, to / "crates" / crate.name / part)
        if has_some(crate.name):
            shutil.copytree(crate / FOLDER, to / "crates" / crate.name / "must-fail")


def tried(name, folder):
    """How many planted bugs of a crate the prover refuses, and how many it does not."""
    ran = subprocess.run(["rt", "must-fail", name], cwd=folder, stdin=subprocess.DEVNULL, stdout=subprocess.PIPE,
                         stderr=subprocess.STDOUT, text=True, errors="replace", check=False)
    said = re.findall(rf"^rt: must-fail {name}/.*$", ran.stdout, re.M)
    refused = [it for it in said if ": refused, as it must be" in it]
    others = [it for it in said if it not in refused]
    wanted = len(list((TOP / "crates" / name / FOLDER).glob("*.edit")))
    print(f"{name}: {len(refused)} of {wanted} are refused", *others, sep="\n", flush=True)
    if len(said) != wanted:
        print(ran.stdout[-2000:], flush=True)
    return len(refused), wanted - len(refused)


def add_arguments(parser):
    parser.add_argument("names", nargs="*", metavar="CRATE")


def run(args):
    every = sorted(it.name for it in (TOP / "crates").iterdir() if has_some(it.name))
    names = args.names or every
    unknown = [it for it in names if it not in every]
    if unknown:
        sys.exit(f"planted-bugs: no wrong bodies in {' '.join(unknown)}")
    with tempfile.TemporaryDirectory() as room:
        copied(Path(room))
        counts = [tried(name, room) for name in names]
    passed, failed = map(sum, zip(*counts))
    print(f"{passed} passed, {failed} failed")
    return 1 if failed else 0
