#!/usr/bin/env python3
"""Draws the pictures of the documents: layers.svg, tile_way.svg and turn.svg, beside this script.

The crates of layers.svg come from crates.txt, heading by heading. Without --write nothing is written: the script names
each file that differs from its drawing, and ends with status 1. It also fails, and writes nothing, if boxes or words
overlap or do not fit into their drawing.
"""
import argparse
import sys
from pathlib import Path
from xml.sax.saxutils import escape

HERE = Path(__file__).resolve().parent
sys.path.insert(0, str(HERE.parents[1] / "tools"))
from texcheck import sources  # noqa: E402

INK, PALE, BLUE, GREEN, AMBER = "#1f2430", "#f4f5f7", "#dbe7f6", "#dff0e0", "#fbeccb"
LETTER = 6.6


def text_width(text, size):
    """How wide words are, with letters of usual width."""
    return len(text) * LETTER * size / 12 * 0.92


def is_over(one, other):
    return one[0] < other[2] and other[0] < one[2] and one[1] < other[3] and other[1] < one[3]


def is_inside(one, other):
    return other[0] <= one[0] and other[1] <= one[1] and one[2] <= other[2] and one[3] <= other[3]


class Picture:
    """A drawing of boxes, arrows and words."""

    def __init__(self, width, height):
        self.width, self.height, self.parts = width, height, []
        self.boxes, self.texts = [], []

    def words(self, x, y, text, size=12, weight="normal", anchor="start", of_box=False):
        """Words on a line; those of a box may lie in it."""
        wide = text_width(text, size)
        left = x - wide / 2 if anchor == "middle" else x
        self.texts.append((text, (left, y - 0.8 * size, left + wide, y + 0.2 * size), of_box))
        self.parts.append(
            f'<text x="{x}" y="{y}" font-size="{size}" font-weight="{weight}" '
            f'text-anchor="{anchor}">{escape(text)}</text>'
        )

    def box(self, x, y, width, height, lines, fill=PALE):
        """A box with its title and lines, each in the middle of its row."""
        self.boxes.append((lines[0], (x, y, x + width, y + height), lines))
        self.parts.append(
            f'<rect x="{x}" y="{y}" width="{width}" height="{height}" rx="5" fill="{fill}" '
            f'stroke="{INK}"/>'
        )
        top = y + height / 2 - 8 * (len(lines) - 1) + 4
        for row, line in enumerate(lines):
            weight = "normal" if row else "bold"
            self.words(x + width / 2, top + 16 * row, line, weight=weight, anchor="middle", of_box=True)

    def arrow(self, *places, says="", at=None):
        """A line through places, with a head at the last, and words at a place of their own."""
        path = " ".join(f"{x},{y}" for x, y in places)
        self.parts.append(
            f'<polyline points="{path}" fill="none" stroke="{INK}" marker-end="url(#head)"/>'
        )
        if says:
            self.words(*at, says, size=11)

    def faults(self):
        """What overlaps something else, or leaves the picture."""
        whole = (0, 0, self.width, self.height)
        places = [it[:2] for it in self.boxes] + [it[:2] for it in self.texts]
        yield from (f"{name} leaves the picture" for name, it in places if not is_inside(it, whole))
        for number, (name, it, lines) in enumerate(self.boxes):
            yield from (f"{name} and {other[0]} lie over each other" for other in self.boxes[number + 1:]
                        if is_over(it, other[1]))
            for text, place, of_box in self.texts:
                is_its_own = of_box and text in lines
                if is_over(it, place) and not (is_its_own and is_inside(place, it)):
                    yield f"{text} lies over the box {name}"
        for number, (text, it, _) in enumerate(self.texts):
            yield from (f"{text} and {other[0]} lie over each other" for other in self.texts[number + 1:]
                        if is_over(it, other[1]))

    def text(self):
        head = (
            f'<svg xmlns="http://www.w3.org/2000/svg" width="{self.width}" height="{self.height}" '
            f'viewBox="0 0 {self.width} {self.height}" font-family="sans-serif" fill="{INK}">'
        )
        marker = (
            '<defs><marker id="head" viewBox="0 0 8 8" refX="8" refY="4" markerWidth="8" '
            'markerHeight="8" orient="auto">'
            f'<path d="M0,0 L8,4 L0,8 z" fill="{INK}"/></marker></defs>'
        )
        ground = f'<rect width="{self.width}" height="{self.height}" fill="#ffffff"/>'
        return "\n".join([head, marker, ground, *self.parts, "</svg>"]) + "\n"


def headings():
    """The headings of crates.txt with their crates, the highest first, without the tests."""
    return [(title, list(crates)) for title, crates in reversed(sources.layers()) if not title.endswith("Tests")]


# Who owns what at a heading, by its number.
OWNERS = {
    "1": ["nothing is owned here: definitions,", "traits of the outside world, waiters"],
    "2": ["nothing is owned here: bytes come in,", "levels, places and samples go out"],
    "3": ["nothing is owned here: a fetch is lent"],
    "4": ["a listing: names and words of all files", "a handle: an open file; a view: what was seen"],
    "5": ["a shard: its tiles; a seat: permits and pins", "a pass: microcache, holds and hand"],
    "6": ["the table: records, idle handles, read-ahead", "a lent handle: its caller"],
    "7": ["a pass: its view, its seat, its tiles,", "the record of its latest lookup"],
    "8": ["run: requests, cache, page", "each worker: a pass and a tap of its own"],
    "9": ["a program: its folder, input and output", "tex_c: what C has supplied for a call"],
}

# What threads share is in these: atomic steps, or locks.
SHARED = {
    *("tag_lock", "gen_board", "shard_gate", "pinned_tiles", "tile_slots"),
    *("file_table", "image_cache", "texture_sys", "host_folder"),
}


def box_width(name):
    return round(len(name) * LETTER * 1.12 + 22)


def layers():
    rows = headings()
    # who owns what stands behind the longest row of boxes
    owners_at = 190 + max(sum(box_width(name) + 8 for name in crates) for _, crates in rows) + 16
    picture = Picture(owners_at + 320, 60 + 62 * len(rows))
    picture.words(16, 24, "The layers, the programs at the top", 14, "bold")
    picture.words(owners_at, 24, "Who owns what", 14, "bold")
    for row, (title, crates) in enumerate(rows):
        y = 40 + 62 * row
        picture.parts.append(f'<rect x="8" y="{y}" width="{picture.width - 16}" height="54" rx="6" fill="{PALE}"/>')
        picture.words(18, y + 31, title)
        x = 190
        for name in crates:
            width = box_width(name)
            picture.box(x, y + 10, width, 34, [name], GREEN if name in SHARED else BLUE)
            x += width + 8
        owners = OWNERS.get(title.split()[0], [])
        for line, text in enumerate(owners):
            picture.words(owners_at, y + (31 if len(owners) == 1 else 24 + 16 * line), text)
    picture.words(16, picture.height - 4, "green: has atomic steps or locks, for threads", 11)
    return picture


def tile_way():
    picture = Picture(980, 400)
    picture.words(16, 24, "A tile's way from its file to the microcache", 14, "bold")
    picture.box(20, 60, 170, 56, ["fetch (image_cache)", "a texel of a record"], AMBER)
    picture.box(290, 60, 180, 56, ["microcache (micro)", "two tiles of the pass"], BLUE)
    picture.box(570, 60, 180, 56, ["values (texel_values)", "16 bits, a hit is counted"], AMBER)
    picture.box(290, 180, 180, 56, ["shard (shard_gate)", "tiles, last used first"], GREEN)
    picture.box(570, 180, 180, 56, ["hand (pinned_tiles)", "a tile that is pinned"], BLUE)
    picture.box(20, 310, 170, 56, ["file_table", "an idle handle"], GREEN)
    picture.box(290, 310, 180, 56, ["tile_load", "reads and unpacks the cell"], BLUE)
    picture.box(570, 310, 180, 56, ["tile (tile_store)", "the samples of the cell"], BLUE)
    picture.box(810, 310, 150, 56, ["file", "one generation"], AMBER)
    picture.arrow((190, 88), (290, 88), says="1 has it?", at=(206, 80))
    picture.arrow((470, 88), (570, 88), says="yes: read", at=(486, 80))
    picture.arrow((360, 116), (360, 180), says="2 no: pin", at=(295, 152))
    picture.arrow((470, 208), (570, 208), says="there: pinned", at=(478, 200))
    back = (660, 180), (660, 140), (425, 140), (425, 116)
    picture.arrow(*back, says="first of two", at=(540, 134))
    picture.arrow((410, 116), (410, 180), says="the older one leaves: unpin", at=(416, 166))
    picture.arrow((360, 236), (360, 310), says="3 not there", at=(288, 278))
    picture.arrow((190, 338), (290, 338), says="lent, settled", at=(203, 330))
    picture.arrow((470, 338), (570, 338), says="a tile", at=(504, 330))
    read = (885, 366), (885, 386), (380, 386), (380, 366)
    picture.arrow(*read, says="bytes, through the tap", at=(560, 381))
    picture.arrow((660, 310), (660, 236), says="pin_new: kept in its shard", at=(668, 278))
    picture.words(790, 80, "Under a turn or a lock", 11)
    picture.words(790, 96, "there is only a look-up:", 11)
    picture.words(790, 112, "files are read without one.", 11)
    return picture


def turn():
    picture = Picture(850, 330)
    picture.words(16, 24, "The steps of a turn at a shard", 14, "bold")
    picture.box(20, 60, 200, 62, ["free", "turn word 0", "the shard is at home"], GREEN)
    picture.box(300, 60, 200, 62, ["taken by a seat", "turn word 1", "the shard is lent"], BLUE)
    work = ["work on the shard", "find, insert, release,", "purge, count"]
    picture.box(580, 60, 200, 62, work, BLUE)
    given = ["given back", "what is lawful for", "the tag is still so"]
    picture.box(580, 190, 200, 62, given, BLUE)
    picture.box(300, 190, 200, 62, ["found taken", "turn word 1", "of another seat"], AMBER)
    picture.arrow((220, 91), (300, 91), says="take", at=(246, 83))
    picture.words(222, 108, "0 to 1", 11)
    picture.arrow((500, 91), (580, 91), says="is lent", at=(524, 83))
    picture.arrow((680, 122), (680, 190), says="no file is read meanwhile", at=(690, 160))
    picture.arrow((680, 252), (680, 290), (70, 290), (70, 122), says="give: store 0", at=(360, 284))
    picture.arrow((150, 122), (150, 221), (300, 221), says="take fails", at=(160, 214))
    picture.arrow((340, 190), (340, 160), (190, 160), (190, 122), says="try again", at=(240, 154))
    picture.arrow((500, 221), (550, 221), says="gave up:", at=(506, 214))
    picture.words(506, 238, "Busy", 11)
    law = "Between any two steps the turn word is the number of seats that have the turn."
    picture.words(16, 318, law, 11)
    return picture


def main():
    asked = argparse.ArgumentParser(description=__doc__, formatter_class=argparse.RawDescriptionHelpFormatter)
    asked.add_argument("--write", action="store_true", help="write the pictures; else they are compared")
    asked.add_argument("--check", action="store_true", help="compare, as without an option")
    status, args = 0, asked.parse_args()
    for name, picture in (("layers", layers()), ("tile_way", tile_way()), ("turn", turn())):
        file = HERE / f"{name}.svg"
        faults = list(picture.faults())
        if faults:
            print(f"docs/pictures/{name}.svg:", *faults, sep="\n    ")
            status = 1
        elif args.write:
            file.write_text(picture.text(), encoding="utf-8")
        elif not file.exists() or file.read_text(encoding="utf-8") != picture.text():
            print(f"docs/pictures/{name}.svg is not what docs/pictures/draw.py draws")
            status = 1
    return status


if __name__ == "__main__":
    sys.exit(main())
