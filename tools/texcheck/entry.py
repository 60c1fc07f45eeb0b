"""The table of subcommands of tools/check."""
import argparse
import importlib
import sys
from pathlib import Path

from texcheck.common import Missing

# Each subcommand with its module in this folder.
SUBCOMMANDS = {
    "unproved": "unproved",
    "commands": "commands",
    "demo": "demo",
    "stored-run": "stored_run",
    "examples": "examples",
    "lists": "lists",
    "random-files": "random_files",
    "failed-allocations": "failed_allocations",
    "replaced-files": "replaced_files",
    "textures": "textures",
    "embedding": "embedding",
    "python": "python_package",
    "bridge": "bridge",
    "viewer": "viewer",
    "baker": "baker",
    "renderer": "renderer",
    "interface": "interface",
    "fault-words": "fault_words",
    "package": "package",
    "fine": "fine",
    "beside-oiio": "beside_oiio",
    "user-tools": "user_tools",
    "pictures": "pictures",
    "prepare": "prepare",
    "curve": "curve",
    "scripts": "scripts",
    "many-lookups": "many_lookups",
    "sample": "sample",
    "planted-bugs": "planted_bugs",
    "ci-times": "ci_times",
}


def parsers(names=tuple(SUBCOMMANDS)):
    """The parser of tools/check, and that of each of these subcommands by its name."""
    whole = argparse.ArgumentParser(prog="tools/check", description="Checks of the repository, and what builds them.",
                                    allow_abbrev=False)
    commands = whole.add_subparsers(dest="command", required=True, metavar="{" + ",".join(SUBCOMMANDS) + "}")
    each = {}
    for name in names:
        found = importlib.import_module(f"texcheck.{SUBCOMMANDS[name]}")
        each[name] = commands.add_parser(name, help=found.HELP, description=found.__doc__, allow_abbrev=False,
                                         formatter_class=argparse.RawDescriptionHelpFormatter)
        getattr(found, "add_arguments", lambda parser: None)(each[name])
        each[name].set_defaults(run=found.run)
    return whole, each


def main(words):
    # the modules of the others are not needed then
    args = parsers(words[:1] if words[:1] and words[0] in SUBCOMMANDS else SUBCOMMANDS)[0].parse_args(words)
    try:
        for it in vars(args).values():
            if isinstance(it, Path) and not it.exists():
                raise Missing(f"there is no {it}")
        return args.run(args)
    except Missing as error:
        print(f"{args.command}: {error}", file=sys.stderr)
        return 1
