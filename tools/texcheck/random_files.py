"""Makes random images, breaks many of them, and compares the program's answers, closing lines and status with what the
formulas give.

A round is a folder of files and a list of requests. plain_reader.py reads the bytes of a file by docs/FORMAT.md alone.
reference.py computes the answers from what it reads, by docs/FILTERING.md and docs/REQUESTS.md. If a line differs, the
file is kept and its path is printed.
"""
import random
import subprocess
import sys
import tempfile
from pathlib import Path

from texcheck.common import add_program, program_of
from texcheck.counts import closing
from texcheck.plain_reader import Fault, pages_of
from texcheck.reference import FIELDS, GENERATION, keys, on_pages
from texcheck.stored_run import SPOKEN, files
from texcheck.tiff import (BIG, BLACK_IS_ZERO, LITTLE, LONG, LONG8, NARROW, RGB, SHORT, WHITE_IS_ZERO, WIDE, Level,
                           tiff)

HELP = "files made at random, many of them broken"
FILES_OF_ROUND = 60
# a file of the stored run that is larger takes its time, and a byte of it tells less
MOST_BYTES = 13000
WRAPS, FILTERS = ("black", "clamp", "periodic", "mirror"), ("closest", "bilinear", "trilinear")
SECONDS_OF_ROUND = 60
# bytes that mean something in a header, an entry or a count, and those beside them
TELLING = (0, 1, 2, 3, 4, 7, 8, 9, 15, 16, 17, 42, 43, 127, 128, 254, 255)


def noise(salt, depth, channels):
    """The samples of a level, without order."""
    return lambda x, y: [((salt + x * 40503 + y * 30011 + c * 10007) * 2654435761 % 2 ** 32 >> 16) % 2 ** depth
                         for c in range(channels)]


def some_level(dice, width, height, channels, depth, kinds):
    """A level in strips or in tiles, whose fields have some of these types."""
    tile = dice.choice([None, (16, 16), (32, 16), (16, 48), (64, 64)])
    types = {tag: dice.choice([SHORT, *kinds]) for tag in (256, 257, 258, 277, 278, 284, 322, 323)
             if dice.random() < 0.2}
    return Level(width, height, noise(dice.randrange(2 ** 16), depth, channels), depth,
                 dice.choice([BLACK_IS_ZERO, WHITE_IS_ZERO, RGB]), tile,
                 None if tile else dice.randint(1, height + 3), dice.choice(kinds),
                 spoken=SPOKEN if dice.random() < 0.3 else (), planar=dice.random() < 0.4, types=types)


def some_picture(dice):
    """The bytes of a file of one to four pages; each is usually half the size of the one before."""
    order, is_wide = dice.choice([LITTLE, BIG]), dice.random() < 0.4
    width, height = dice.randint(1, 50), dice.randint(1, 50)
    channels, depth = dice.randint(1, 8), dice.choice([8, 16])
    levels = []
    for _ in range(dice.randint(1, 4)):
        levels.append(some_level(dice, width, height, channels, depth, [LONG, LONG8] if is_wide else [LONG]))
        halved = dice.random() < 0.9
        width, height = max(1, width // 2) if halved else dice.randint(1, 20), max(1, height // 2)
    return tiff(order, levels, WIDE[order] if is_wide else NARROW)


def broken(dice, data):
    """The bytes with up to five changes: bytes cut off, bytes appended, or one byte replaced."""
    for _ in range(dice.choice([0, 1, 1, 1, 2, 3, 5])):
        change = dice.random()
        if change < 0.15:
            data = data[:dice.randint(0, len(data))] if change < 0.07 else data[:-dice.randint(1, 8)]
        elif change < 0.2:
            data += bytes(dice.randrange(256) for _ in range(dice.randint(1, 20)))
        elif data:
            at = dice.randrange(len(data) if change < 0.45 else min(len(data), 260))
            byte = dice.choice(TELLING) if dice.random() < 0.7 else dice.randrange(256)
            data = data[:at] + bytes([byte]) + data[at + 1:]
    return data


def some_requests(dice, name):
    """A request for a file in each form, and some more."""
    yield f"info {name}"
    for _ in range(3):
        level = dice.choice([0, 0, 1, 2, dice.randint(0, 20)])
        x, y, w, h = (dice.randint(low, high) for low, high in ((-3, 40), (-3, 40), (0, 12), (0, 12)))
        yield f"pixels {level} {x} {y} {w} {h} {name}"
    for word in ("tex", "tex", "tex", "texd"):
        place = [dice.randint(-100000, 160000) for _ in range(2)]
        wraps, channels = " ".join(dice.choices(WRAPS, k=2)), dice.randint(1, 8)
        if word == "tex":
            numbers = [*place, dice.choice([0, dice.randint(0, 400000)])]
            kind = f" {dice.choice(FILTERS)}"
        else:
            numbers = [*place, *(dice.randint(-70000, 70000) >> dice.randint(0, 6) for _ in range(4))]
            kind = ""
        yield f"{word} {' '.join(map(str, numbers))} {wraps}{kind} {channels} {name}"


def some_words(dice):
    """Options, and the number of workers. They change no answer, only which worker gives it."""
    workers = dice.randint(1, 4)
    words = ["--workers", str(workers)]
    words += ["--budget", str(dice.choice([0, 1000, 100000]))] if dice.random() < 0.5 else []
    words += ["--shards", str(dice.randint(1, 8))] if dice.random() < 0.5 else []
    words += ["--handles", str(dice.randint(1, 3))] if dice.random() < 0.5 else []
    words += ["--slots", "0"] if workers == 2 else []
    return words, workers


class Round:
    """The files of a round, and what is read of each: its levels, or its fault."""

    def __init__(self, dice, seeds):
        self.files, self.read = {}, {}
        for number in range(FILES_OF_ROUND):
            made = some_picture(dice) if dice.random() < 0.5 else dice.choice(seeds)
            data = broken(dice, made)
            self.files[f"f{number:02}.tif"] = data
            try:
                self.read[f"f{number:02}.tif"] = pages_of(data)
            except Fault as fault:
                self.read[f"f{number:02}.tif"] = fault
        self.requests = [it for name in self.files for it in some_requests(dice, name)]
        dice.shuffle(self.requests)

    def answer(self, request):
        word = request.split(" ", 1)[0]
        _, *numbers, name = request.split(" ", FIELDS[word] + 1)
        read = self.read[name]
        if isinstance(read, Fault):
            return ["bad file", GENERATION, *read.args]
        return on_pages(word, numbers, read)

    def lines(self, workers):
        """What the program must print."""
        answers = [self.answer(it) for it in self.requests]
        answers += closing(self.requests, answers, workers,
                           lambda request, line: keys(request, line, lambda name: self.read[name]))
        return [" ".join(map(str, it)) for it in answers]

    def written(self, program, words):
        """What it prints, and its status."""
        with tempfile.TemporaryDirectory() as folder:
            for name, data in self.files.items():
                (Path(folder) / name).write_bytes(data)
            asked = "".join(f"{it}\n" for it in self.requests)
            done = subprocess.run([program, folder, *words], input=asked, capture_output=True, text=True,
                                  timeout=SECONDS_OF_ROUND, check=False)
        return done.stdout.splitlines(), done.returncode

    def keep(self, request):
        """Where the file of a request is kept."""
        with tempfile.NamedTemporaryFile(prefix="random_files_", suffix=".tif", delete=False) as kept:
            kept.write(self.files[request.split(" ")[-1]])
        return kept.name


def add_arguments(parser):
    add_program(parser, "texcache")
    parser.add_argument("--seed", type=int, default=1)
    parser.add_argument("--rounds", type=int, default=4, help="4 if it is not given")


def run(args):
    program, dice = program_of(args, "texcache"), random.Random(args.seed)
    seeds = [data for data in files().values() if len(data) < MOST_BYTES]
    compared, faults = 0, 0
    for _ in range(args.rounds):
        one = Round(dice, seeds)
        words, workers = some_words(dice)
        wanted, (written, status) = one.lines(workers), one.written(program, words)
        for request, line, want in zip(one.requests, written, wanted):
            if line != want:
                sys.exit(f"random-files: {' '.join(words)}: {request}\n  {line}\n  {want}\n  {one.keep(request)}")
        if (written, status) != (wanted, 0 if wanted[-1].endswith("refused 0") else 1):
            sys.exit(f"random-files: {' '.join(words)}: status {status}, {len(written)} lines of {len(wanted)}, "
                     f"at the end {written[len(one.requests):]} and not {wanted[len(one.requests):]}")
        compared += len(one.requests)
        faults += sum(isinstance(it, Fault) for it in one.read.values())
    print(f"random-files: {compared} answers on {FILES_OF_ROUND * args.rounds} files, {faults} of them bad, are those "
          "of the formulas")
    return 0
