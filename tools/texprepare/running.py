"""Makes the textures of a folder, several at a time, and says at the end what came of it."""
import signal
import time
from collections import Counter
from concurrent.futures import FIRST_COMPLETED, ThreadPoolExecutor, wait
from pathlib import Path

from texcheck.plain_reader import Fault
from texprepare.children import Interrupted
from texprepare.comparing import Differs
from texprepare.making import DiskFull, Failed, Room, free_bytes
from texprepare.naming import MAX_NAMES, odd_tiles, shown, udim_sets
from texprepare.progress import Progress, time_text
from texprepare.sizes import facts_text, size_text, tiff_facts

INTERRUPTED = 130
SHOWN_TILES = 12


class Results:
    """What came of each image."""

    def __init__(self):
        self.made, self.current, self.failed, self.left = {}, [], {}, []
        self.compared, self.is_full = 0, False


class Run:
    def __init__(self, options, maker, children):
        self.options, self.maker, self.children, self.results = options, maker, children, Results()

    def one(self, image):
        """Makes one texture if it is not up to date, and gives the line about it. (Failures are in the summary.)"""
        results = self.results
        if results.is_full or self.children.is_stopped:
            results.left.append(image)
            return ""
        try:
            if not image.refused and self.maker.is_current(image):
                if self.maker.compare:
                    self.maker.compare_current(image)
                    results.compared += 1
                results.current.append(image)
                return ""
            made = self.maker.make(image)
            results.made[image.name] = made
            results.compared += bool(self.maker.compare)
            return f"made {shown(image.target)} ({made.made_by})"
        except Interrupted:
            results.left.append(image)
            return ""
        except DiskFull as error:
            results.is_full = True
            text = str(error)
        except Differs as error:
            text = f"the texture was not kept: {error}"
        except (Failed, Fault) as error:
            text = str(error)
        except OSError as error:
            text = f"{shown(str(error.filename))}: {error.strerror}"
        results.failed[image.name] = text
        return ""

    def all(self, images):
        """Makes the textures, side by side, and gives the exit status."""
        began = time.monotonic()
        for number in (signal.SIGINT, signal.SIGTERM, signal.SIGHUP):
            signal.signal(number, lambda _number, _frame: self.children.stop())
        try:
            self.maker.room = Room(self.options.dest)
        except OSError as error:
            print(f"prepare.py: the destination {shown(str(self.options.dest))} cannot be written: {error.strerror}")
            return 1
        progress = Progress(images)
        try:
            with ThreadPoolExecutor(self.options.jobs) as pool:
                self.follow({pool.submit(self.one, it): it for it in images}, progress)
        finally:
            progress.close()
            self.maker.room.close()
        print(*self.summary(images, time.monotonic() - began), sep="\n", flush=True)
        if self.children.is_stopped:
            return INTERRUPTED
        return 1 if self.results.failed or self.results.left else 0

    def follow(self, running, progress):
        """Shows how far the textures have come until all are done. If that fails, nothing more is made."""
        try:
            while running:
                done, _ = wait(running, timeout=0.5, return_when=FIRST_COMPLETED)
                for it in done:
                    progress.step(running.pop(it), it.result())
                progress.show()
        except BaseException:
            self.children.stop()
            raise

    def summary(self, images, seconds):
        """The lines at the end."""
        found, by_name = self.results, {it.name: it for it in images}
        counts = [f"{len(found.made)} made", f"{len(found.current)} up to date", f"{len(found.failed)} failed"]
        counts += [f"{found.compared} compared with their images"] if self.maker.compare else []
        counts += [f"{len(found.left)} left"] if found.left else []
        yield f"{len(images)} image{'s' * (len(images) != 1)}: {', '.join(counts)}, in {time_text(seconds)}"
        programs = Counter(it.made_by for it in found.made.values())
        if programs and set(programs) != {"texmake"}:
            yield "made by " + ", ".join(f"{it} {programs[it]}" for it in sorted(programs))
        for name, made in sorted(found.made.items()):
            if made.is_large:
                yield f"large, so made by {made.made_by} with all levels: {shown(name)}"
            if made.clamped:
                yield f"clamped to 0 to 1: {shown(name)}, {made.clamped}"
        if not self.options.only:
            yield from self.udim_lines(images)
            yield from crowded(it.target for it in images if it.name not in found.failed)
        for name, text in sorted(found.failed.items()):
            yield f"failed: {shown(name)}: {text}"
        if found.is_full:
            yield from self.missing_space([by_name[it] for it in found.failed] + found.left)
        if self.children.is_stopped:
            yield "interrupted; the textures that are there are whole, and a new run makes the others"

    def missing_space(self, images):
        needed, free = sum(map(self.maker.needed, images)), free_bytes(self.options.dest)
        yield (f"the disk is full: {len(images)} textures that are not made need some {size_text(needed)}, "
               f"{size_text(free)} are free, so {size_text(max(0, needed - free))} are missing. A new run makes the rest")

    def udim_lines(self, images):
        """Each UDIM texture with its tiles, and the tiles that are not like the others."""
        for name, tiles in udim_sets(it.target for it in images).items():
            facts = {}
            for number, target in tiles.items():
                try:
                    facts[number] = tiff_facts(self.options.dest / target)
                except (OSError, Fault):
                    continue
            yield from udim_text(name, tiles, facts)


def udim_text(name, tiles, facts):
    numbers = [str(it) for it in tiles]
    more = ["..", numbers[-1]] if len(numbers) > SHOWN_TILES else numbers[SHOWN_TILES - 1:SHOWN_TILES]
    missing = sorted(set(tiles) - set(facts))
    yield (f"UDIM: {shown(name)}, {len(tiles)} tile{'s' * (len(tiles) != 1)}: {', '.join(numbers[:SHOWN_TILES - 1] + more)}"
           + (f"; not made: {', '.join(map(str, missing))}" if missing else ""))
    if facts:
        odd, usual = odd_tiles(facts)
        for number, it in odd.items():
            yield f"warning: {shown(name)}: tile {number} is {facts_text(it)}, and most tiles are {facts_text(usual)}"


def crowded(targets):
    """The folders that have more names than the cache serves."""
    for folder, count in Counter(str(Path(it).parent) for it in targets).items():
        if count > MAX_NAMES:
            yield (f"warning: the folder {shown(folder)} gets {count} textures, and the cache serves at most {MAX_NAMES} "
                   "of one folder")
