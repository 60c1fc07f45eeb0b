"""Lookups on floats through the Python package, one and many: lookups FOLDER, the demo's. With numpy they take and give
arrays, without it lists."""
import argparse
import math
import sys
from pathlib import Path

sys.path.insert(0, str(Path(__file__).resolve().parents[2] / "python"))

COUNT = 300


def listed(values):
    return values.tolist() if hasattr(values, "tolist") else values


def refused(call, detail, value, stands=()):
    """Whether a call is refused as a number out of range, and which; and the values that stand."""
    try:
        call()
    except texcache.Refused as error:
        answer = error.answer
        return (error.status, answer.detail, answer.value) == (4, detail, value) and listed(error.values) == list(stands)
    return False


def compared(textures, file):
    """What is not so."""
    s, t = ([(7 * i + k) % COUNT / COUNT * 3 - 1 for i in range(COUNT)] for k in (1, 5))
    steps = [[(i * k % 11 - 5) / 400 for i in range(COUNT)] for k in (3, 5, 7, 9)]
    with_nan = [*s[:COUNT - 1], math.nan]
    for more in ({}, {"filter": texcache.TRILINEAR, "lod": 1.25, "swrap": texcache.MIRROR, "channels": 5}):
        many = listed(textures.texture(file, s, t, **more))
        yield many == [textures.texture(file, *it, **more) for it in zip(s, t)], f"many and one, {more}"
        floats = listed(textures.texture(file, s, t, floats=True, **more))
        is_near = all(abs(a * 65535 - b) < 0.01 for x, y in zip(floats, many) for a, b in zip(x, y))
        yield is_near and len(floats) == len(many), "floats"
    for more in ({}, {"max_probes": 32, "twrap": texcache.BLACK, "channels": 1}):
        many = listed(textures.texture_footprint(file, s, t, *steps, **more))
        one = [textures.texture_footprint(file, *it, **more) for it in zip(s, t, *steps)]
        yield many == one, f"footprints, many and one, {more}"
    yield listed(textures.texture(file, [], [])) == [], "none"
    yield refused(lambda: textures.texture(file, with_nan, t), 7, COUNT - 1), "NaN"
    yield refused(lambda: textures.texture(file, [0, 40000, 40000], [0, 0, 0]), 7, 1), "too large"
    yield refused(lambda: textures.texture(file, s, t, channels=9), 3, 0), "channels"
    yield refused(lambda: textures.texture(file, s, t, lod=math.inf), 5, 0), "lod"
    yield refused(lambda: textures.texture_footprint(file, s, t, *steps, max_probes=0), 6, 0), "max_probes"
    if texcache.numpy:
        np = texcache.numpy
        x, y = np.array(s).reshape(20, 15), np.array(t).reshape(20, 15)
        grid = textures.texture(file, x, y)
        yield grid.shape == (20, 15, 3) and grid.dtype == np.uint16, "the shape of an array"
        yield textures.texture(file, x, y, floats=True).dtype == np.float32, "the type of floats"
        yield (textures.texture(file, x.T, y.T) == grid.transpose(1, 0, 2)).all(), "an array in another order"
        yield (textures.texture(file, x[::2, ::3], y[::2, ::3]) == grid[::2, ::3]).all(), "a part of an array"
        yield (textures.texture(file, x[0], 0.25) == textures.texture(file, x[0], x[0] * 0 + 0.25)).all(), "a number for all"
        yield (textures.texture(file, np.float32(x), y) == textures.texture(file, np.float32(x).astype(float), y)).all(), "f32"
    else:
        try:
            textures.texture(file, s, t[1:])
            yield False, "lists of different lengths"
        except ValueError:
            pass


def arguments():
    words = argparse.ArgumentParser(description=__doc__)
    words.add_argument("folder")
    return words.parse_args()


def main(folder):
    with texcache.Cache(folder) as cache, cache.new_pass() as textures:
        wrong = [what for is_so, what in compared(textures, cache.find("bricks.tif")) if not is_so]
    print(*(f"not so: {it}" for it in wrong), f"{len(wrong)} failed", sep="\n")
    return 1 if wrong else 0


if __name__ == "__main__":
    ARGUMENTS = arguments()
    import texcache  # once they are right: it loads the library
    sys.exit(main(ARGUMENTS.folder))
