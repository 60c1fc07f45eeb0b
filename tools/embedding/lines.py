"""Answers a list of requests through the Python package, as lines.c does in C. A request that the library does not
have is answered `-`."""
import argparse
import sys
from concurrent.futures import ThreadPoolExecutor
from pathlib import Path

sys.path.insert(0, str(Path(__file__).resolve().parents[2] / "python"))

WRAPS = ["black", "clamp", "periodic", "mirror"]
FILTERS = ["closest", "bilinear", "trilinear"]


def refusal(e):
    a, text = e.answer, e.reason
    if text in ("no such name", "no such UDIM tile"):
        return "no such file"
    if text == "bad file":
        more = {5: [a.part], 6: [a.part], 7: [a.part, a.value], 12: [a.part, a.value]}.get(a.detail, [])
        return " ".join(map(str, [text, a.generation, a.detail, *more]))
    if text == "no level":
        return f"{text} {a.generation} {a.detail}"
    return f"{text} {a.generation}" if text in ("tile too large", "outside") else text


def flat(values):
    return values.reshape(-1).tolist() if texcache.numpy else values


def answered(cache, textures, line):
    word, _, rest = line.partition(" ")
    many = {"tex": 7, "texd": 9, "pixels": 5, "info": 0}.get(word)
    if word == "sync":
        return word
    if many is None:
        return "-"
    *given, name = rest.split(" ", many)
    file = cache.find(name)
    if word == "tex":
        s, t, lod, swrap, twrap, by, channels = given
        values = textures.texture_fixed(file, int(s), int(t), int(lod), WRAPS.index(swrap), WRAPS.index(twrap),
                                        FILTERS.index(by), int(channels))
    elif word == "texd":
        values = textures.texture_d_fixed(file, *map(int, given[:6]), WRAPS.index(given[6]),
                                          WRAPS.index(given[7]), int(given[8]))
    elif word == "pixels":
        values = flat(textures.pixels(file, *map(int, given)))
        values = [textures.answer.channels, *values]
    else:
        info = textures.info(file)
        values = [info.width, info.height, info.channels, info.depth, info.stored, info.levels]
    return " ".join(map(str, [word, textures.answer.generation, *values]))


def part(cache, lines, first, step):
    said = {}
    with cache.new_pass() as textures:
        for at in range(first, len(lines), step):
            try:
                said[at] = answered(cache, textures, lines[at])
            except texcache.Refused as e:
                said[at] = refusal(e)
    return said


def arguments():
    words = argparse.ArgumentParser(description=__doc__)
    words.add_argument("folder")
    words.add_argument("threads", type=int)
    return words.parse_args()


def main(folder, threads):
    lines = [it.rstrip("\r\n") for it in sys.stdin if it.rstrip("\r\n") and not it.startswith("#")]
    said = {}
    with texcache.Cache(folder) as cache, ThreadPoolExecutor(threads) as pool:
        for it in pool.map(lambda n: part(cache, lines, n, threads), range(threads)):
            said.update(it)
    print("\n".join(said[at] for at in range(len(lines))))


if __name__ == "__main__":
    ARGUMENTS = arguments()
    import texcache  # once they are right: it loads the library
    main(ARGUMENTS.folder, ARGUMENTS.threads)
