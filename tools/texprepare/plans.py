"""What a run would do: as commands for a scheduler (--list), or in words with disk and time (--check)."""
import shlex
import sys
from pathlib import Path

from texcheck.plain_reader import Fault
from texprepare.making import NOT_A_TIFF, Failed, free_bytes
from texprepare.naming import shown, udim_sets
from texprepare.progress import time_text
from texprepare.running import crowded, udim_text
from texprepare.sizes import MAX_SAMPLES, file_fault, is_tiff, samples, size_text, texture_bytes, tiff_facts

# Seconds of one processor for a million samples, and to start a program. (Measured on a virtual machine with 2.5 GHz;
# only a first guess for another one.)
MADE_SECONDS, CONVERTED_SECONDS = 0.02, 0.1
START_MADE, START_CONVERTED = 0.01, 0.4
SCRIPT = Path(__file__).resolve().parents[1] / "prepare.py"


def command(options, image):
    """The command that makes one texture, from any folder and on any host that sees the same files."""
    words = [SCRIPT, options.source, options.dest, f"--only={image.name}", f"--tile={options.tile}", "--jobs=1",
             f"--program={options.program}"]
    words += [f"--bits={options.bits}", "--convert"] if options.convert else []
    words += [f"--converter={options.converter}"] if options.converter else []
    words += [f"--{it}" for it in ("flat", "verify") if getattr(options, it)]
    return shlex.join(map(str, words))


def listed(maker, images):
    """Prints the commands, and what is refused on the error output."""
    failed = 0
    for image in images:
        try:
            if image.refused:
                raise Failed(image.refused)
            if not maker.is_current(image):
                print(command(maker.options, image))
        except (Failed, OSError) as error:
            failed += 1
            print(f"failed: {shown(image.name)}: {error}", file=sys.stderr)
    return 1 if failed else 0


class Plan:
    """What is to be done with one image: the words for it, the facts of the image, bytes and seconds."""

    def __init__(self, maker, image, facts):
        self.image, self.facts, self.bytes, self.seconds, self.failed = image, facts, 0, 0, False
        options = maker.options
        try:
            if image.refused:
                raise Failed(image.refused)
            if maker.is_current(image):
                self.words = f"up to date: {shown(image.target)}"
                return
            numbers = file_fault(image.path) if is_tiff(image.path) else NOT_A_TIFF
            is_large = facts and samples(facts) > MAX_SAMPLES
            if (numbers or is_large) and not (options.convert and maker.converter):
                raise maker.needs_converter(image.path)
            if numbers and not facts:
                raise Failed(f"{maker.converter.name} cannot read it")
        except (Failed, Fault) as error:
            self.failed, self.words = True, f"would fail: {shown(image.name)}: {error}"
            return
        except OSError as error:
            self.failed, self.words = True, f"would fail: {shown(image.name)}: {error.strerror}"
            return
        if numbers:
            self.facts = facts._replace(depth=options.bits)
        self.bytes = texture_bytes(self.facts, options.tile)
        self.seconds = START_MADE + MADE_SECONDS * samples(facts) / 1e6
        if numbers or is_large:
            self.seconds += START_CONVERTED + CONVERTED_SECONDS * samples(facts) / 1e6
        by = maker.converter.name if is_large else f"{maker.converter.name} and texmake" if numbers else "texmake"
        self.words = f"would make: {shown(image.target)} of {shown(image.name)} by {by}, {size_text(self.bytes)}"


def facts_of(maker, images):
    """The facts of the images whose sizes can be known."""
    found, others = {}, []
    for it in images:
        try:
            if is_tiff(it.path) and not file_fault(it.path):
                found[it.path] = tiff_facts(it.path)
                continue
        except (OSError, Fault):
            pass
        others.append(it.path)
    return {**found, **(maker.converter.facts(others) if maker.converter and others else {})}


def planned(maker, images):
    """Prints what would be done; changes nothing."""
    options, facts = maker.options, facts_of(maker, images)
    plans = [Plan(maker, it, facts.get(it.path)) for it in images]
    for it in plans:
        print(it.words)
    for name, tiles in udim_sets(it.target for it in images).items():
        known = {it.image.target: it.facts for it in plans if it.facts and not it.failed}
        print(*udim_text(name, tiles, {n: known[it] for n, it in tiles.items() if it in known}), sep="\n")
    for line in crowded(it.image.target for it in plans if not it.failed):
        print(line)
    to_make = [it for it in plans if it.bytes]
    needed, free = sum(it.bytes for it in to_make), free_bytes(options.dest)
    failed = sum(it.failed for it in plans)
    print(f"{len(images)} images: {len(to_make)} to make, {len(plans) - len(to_make) - failed} up to date, {failed} would "
          f"fail; {size_text(needed)} of disk, and {size_text(free)} are free; some "
          f"{time_text(sum(it.seconds for it in to_make) / options.jobs)} with {options.jobs} jobs")
    if needed > free:
        print(f"the disk is too small: {size_text(needed - free)} are missing")
    return 1 if failed or needed > free else 0
