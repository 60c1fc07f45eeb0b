#!/usr/bin/env python3
"""Makes the tables of docs/BENCHMARK.md and the plot docs/pictures/benchmark.svg from figures.json, which run.py writes.

Without --write it compares and changes nothing; the status is then 1 if something differs.
"""
import argparse
import json
import math
import sys
import textwrap
from pathlib import Path
from xml.sax.saxutils import escape

HERE = Path(__file__).resolve().parent
FIGURES = HERE / "figures.json"
PAGE = HERE.parent / "docs" / "BENCHMARK.md"
PLOT = HERE.parent / "docs" / "pictures" / "benchmark.svg"
BEGIN, END = "<!-- figures: made by bench/draw.py -->", "<!-- end of the figures -->"
INK, PALE, GREEN, AMBER = "#1f2430", "#d5d8de", "#8fc793", "#eebf6d"


def time_text(microseconds):
    if microseconds <= 0:
        return "below the noise"
    for unit, size in (("s", 10 ** 6), ("ms", 10 ** 3), ("us", 1)):
        if microseconds >= size:
            return f"{microseconds / size:.3g} {unit}"
    return f"{1000 * microseconds:.0f} ns"


def ratio(times, ours, its):
    """OpenImageIO's time over ours, or None if one is missing or below the noise."""
    found = [times.get(ours), times.get(its)]
    return found[1] / found[0] if all(it and it > 0 for it in found) else None


def ratio_text(found):
    if found is None:
        return ""
    text = f"{found:.2f}" if found < 2 else f"{found:.1f}" if found < 10 else f"{found:.0f}"
    return f"**{text}**" if found < 0.995 else text


def cells(times):
    """The cells for one number of workers: the C library beside the calls, the program beside the whole."""
    for ours, its in (("c", "oiio"), ("program", "oiio_text")):
        yield from (time_text(times[it]) if it in times else "" for it in (ours, its))
        yield ratio_text(ratio(times, ours, its))


def memory_text(row):
    return " / ".join(str(row["memory"][it]) for it in ("program", "oiio")) if "memory" in row else ""


def table(head, lines):
    return "".join("| " + " | ".join(it) + " |\n" for it in [head, ["---"] * len(head), *lines])


def tables(figures):
    """The table for one worker, with the peak memory, and the one for four."""
    alone = [[row["title"], row["unit"], *cells(row["times"]["1"]), memory_text(row)] for row in figures["rows"]]
    four = [[row["title"], *cells(row["times"]["4"])] for row in figures["rows"] if "4" in row["times"]]
    columns = ["C library", "its calls", "ratio", "program", "its program", "ratio"]
    said = (f"Commit {figures['commit']}, OpenImageIO {figures['oiio']}, {figures['processors']} processors "
            f"({figures['processor']}), {figures['load']}; the least of {figures['passes']} passes.")
    said = "\n".join(textwrap.wrap(said, 120))
    return (f"{said}\n\n{table(['One worker, processor time', 'per', *columns, 'MB: ours / its'], alone)}\n"
            f"{table(['Four workers, wall time', *columns], four)}")


def page(figures, text):
    """The page with its figures replaced."""
    before, _, rest = text.partition(BEGIN)
    return f"{before}{BEGIN}\n{tables(figures)}{END}{rest.partition(END)[2]}"


def plot(figures):
    bars = [(row["title"], found) for row in figures["rows"]
            for found in [(ratio(row["times"]["1"], "c", "oiio"), ratio(row["times"]["1"], "program", "oiio_text"))]
            if any(found)]
    ratios = [it for _, found in bars for it in found if it]
    left, step, high = 330, 62, 34
    most, least = max(1, math.ceil(math.log2(max(ratios)))), min(-1, math.floor(math.log2(min(ratios))))
    width, height = left + step * (most - least) + 120, 78 + high * len(bars)
    middle = left + step * -least
    parts = [f'<svg xmlns="http://www.w3.org/2000/svg" width="{width}" height="{height}" viewBox="0 0 {width} '
             f'{height}" font-family="sans-serif" font-size="12" fill="{INK}">',
             f'<rect width="{width}" height="{height}" fill="#ffffff"/>',
             f'<text x="8" y="18" font-size="14" font-weight="bold">OpenImageIO\'s time over ours, one worker, commit '
             f'{escape(figures["commit"])}</text>',
             '<text x="8" y="36" font-size="11">upper bar: C library beside its calls; lower bar: program beside its '
             'program; right of 1 texcache is faster</text>']
    for power in range(least, most + 1):
        x = middle + step * power
        says = str(2 ** power) if power >= 0 else f"1/{2 ** -power}"
        parts.append(f'<line x1="{x}" y1="60" x2="{x}" y2="{height - 10}" stroke="{INK if power == 0 else PALE}"/>')
        parts.append(f'<text x="{x}" y="54" text-anchor="middle" font-size="11">{says}</text>')
    for place, (title, found) in enumerate(bars):
        top = 64 + high * place
        parts.append(f'<text x="{left - 12}" y="{top + 18}" text-anchor="end">{escape(title)}</text>')
        for y, it in zip((top, top + 14), found):
            if it:
                x = middle + step * math.log2(it)
                begin, end = min(x, middle), max(x, middle)
                parts.append(f'<rect x="{begin:.1f}" y="{y}" width="{end - begin:.1f}" height="12" '
                             f'fill="{GREEN if it >= 0.995 else AMBER}"/>')
                parts.append(f'<text x="{end + 5:.1f}" y="{y + 10}" font-size="10">{ratio_text(it).strip("*")}</text>')
    return "\n".join([*parts, "</svg>"]) + "\n"


def made(figures):
    """What the files should have."""
    return {PAGE: page(figures, PAGE.read_text(encoding="utf-8")), PLOT: plot(figures)}


def write(figures):
    for file, text in made(figures).items():
        file.write_text(text, encoding="utf-8")


def main():
    parser = argparse.ArgumentParser(description=__doc__.split("\n\n")[0],
                                     epilog="Without --write it compares, and changes nothing.")
    parser.add_argument("--write", action="store_true", help="write docs/BENCHMARK.md and docs/pictures/benchmark.svg")
    asked = parser.parse_args()
    figures = json.loads(FIGURES.read_text(encoding="utf-8"))
    if asked.write:
        write(figures)
    differing = [file for file, text in made(figures).items() if file.read_text(encoding="utf-8") != text]
    print(*[f"{it} is not what bench/draw.py makes: run it with --write" for it in differing]
          or ["docs/BENCHMARK.md and its plot show bench/figures.json"], sep="\n")
    return 1 if differing else 0


if __name__ == "__main__":
    sys.exit(main())
