"""Values of the Python package beside a plain model: values. Lookups, footprints, regions and tiles of pictures of noise
are compared with tools/texcheck/fine_model.py, which shares nothing with the library. With numpy they are arrays of
16-bit numbers, floats and half floats, also in arrays of the caller; without it lists."""
import argparse
import random
import sys
import tempfile
import threading
from pathlib import Path

sys.path.insert(0, str(Path(__file__).resolve().parents[1]))
from texcheck import fine_model as model  # noqa: E402
from texcheck.fine import Picture, lists  # noqa: E402

COUNT = 240
WRAPS = (model.MIRROR, model.BLACK)
STEPS = ("dsdx", "dtdx", "dsdy", "dtdy")


def pictures():
    yield Picture("deep.tif", 70, 50, 3, 16, 16)
    yield Picture("four.tif", 100, 37, 4, 8, 16)
    yield Picture("grey.tif", 64, 64, 1, 8, 32)


def places(name):
    """S, t and four derivatives of each lookup."""
    drawn = random.Random(name)
    columns = [[drawn.uniform(-1, 2) for _ in range(COUNT)] for _ in range(2)]
    return columns + [[drawn.uniform(-0.05, 0.05) for _ in range(COUNT)] for _ in range(4)]


def points(picture, columns, channels, lod=0.0, kind=model.BILINEAR):
    """What the model has for lookups at places."""
    numbers = [[model.fine(it) for it in row] for row in zip(*columns[:2])]
    return [model.point(picture, *it, model.lod_from(lod), kind, WRAPS, channels) for it in numbers]


def footprints(picture, columns, channels, max_probes=16):
    """What the model has for lookups over footprints."""
    rows = [[model.fine(it) for it in row] for row in zip(*columns)]
    return [model.footprint(picture, s, t, steps, max_probes, WRAPS, channels) for s, t, *steps in rows]


def region(picture, level, x, y, w, h):
    """What the picture has in a region, row by row; 0 outside."""
    wide, high = picture.sizes[level]
    none = (0,) * picture.channels
    return [[list(picture.value(level, i, j) if 0 <= i < wide and 0 <= j < high else none) for i in range(x, x + w)]
            for j in range(y, y + h)]


def flat(values):
    return [c for row in values for texel in row for c in texel]


def is_near(found, wanted, most):
    """Whether all floats are near the 16-bit values."""
    return all(abs(a - b / 65535) <= most for x, y in zip(lists(found), wanted) for a, b in zip(x, y))


def of_any_python(texcache, textures, file, picture, columns):
    """What holds with and without numpy."""
    how = {"swrap": WRAPS[0], "twrap": WRAPS[1]}
    channels, wanted = picture.channels, points(picture, columns, picture.channels)
    found = textures.texture(file, *columns[:2], channels=channels, **how)
    yield lists(found) == wanted, "lookups"
    one = [textures.texture(file, *it, channels=channels, **how) for it in zip(*columns[:2])]
    yield one == wanted, "single lookups"
    floats = textures.texture(file, *columns[:2], channels=channels, floats=True, **how)
    yield len(floats) == COUNT and is_near(floats, wanted, 1e-7), "floats"
    one = [textures.texture(file, *it, channels=channels, floats=True, **how) for it in zip(*columns[:2])]
    yield one == lists(floats), "single floats"
    for lod, kind in ((1.75, model.TRILINEAR), (2.0, model.CLOSEST), (1.2, model.BILINEAR)):
        found = textures.texture(file, *columns[:2], lod=lod, filter=kind, channels=channels, **how)
        yield lists(found) == points(picture, columns, channels, lod, kind), f"level {lod}"
    biased = textures.texture(file, *columns[:2], lod=1, lod_bias=0.75, filter=model.TRILINEAR, channels=channels, **how)
    yield lists(biased) == points(picture, columns, channels, 1.75, model.TRILINEAR), "lod_bias"
    wanted = footprints(picture, columns, channels)
    found = textures.texture_footprint(file, *columns, channels=channels, **how)
    yield lists(found) == wanted, "footprints"
    one = [textures.texture_footprint(file, *it, channels=channels, **how) for it in zip(*columns)]
    yield one == wanted, "single footprints"
    halved = [*columns[:2], *([it / 2 for it in row] for row in columns[2:])]
    found = textures.texture_footprint(file, *halved, channels=channels, width=2, **how)
    yield lists(found) == wanted, "width"
    few = textures.texture_footprint(file, *columns, max_probes=5, channels=channels, **how)
    yield lists(few) == footprints(picture, columns, channels, 5), "max_probes"
    blurred = textures.texture_footprint(file, *columns, channels=channels, blur=(0, 0.0), **how)
    yield lists(blurred) == wanted, "no blur"
    more = textures.texture(file, *columns[:2], channels=8, fill=0.25, fill_alpha=0.5, floats=True, **how)
    yield all([it[c] for c in range(channels, 8)] == [0.5 if c == 3 else 0.25 for c in range(channels, 8)]
              for it in lists(more)), "fill"
    if channels > 1:
        later = textures.texture(file, *columns[:2], first_channel=1, channels=channels - 1, **how)
        yield lists(later) == [it[1:] for it in points(picture, columns, channels)], "first_channel"
    else:
        grey = textures.texture(file, *columns[:2], grey_to_rgb=True, **how)
        yield lists(grey) == [3 * it for it in points(picture, columns, 1)], "grey_to_rgb"
    for level, x, y, w, h in ((0, 3, 5, 7, 9), (0, -2, -1, 5, 4), (1, 20, 10, 40, 30), (2, 0, 0, 1, 1), (0, 9, 9, 0, 4)):
        found = textures.pixels(file, level, x, y, w, h)
        yield lists(found) == (region if texcache.numpy else lambda *it: flat(region(*it)))(picture, level, x, y, w, h), \
            f"the region {level, x, y, w, h}"
    textures.get_tile(file, 0, 20, 20)
    tile = textures.tile_at(0)
    scale = 257 if picture.depth == 8 else 1
    samples = [it * scale for it in (textures.tile_texels(0).reshape(-1) if texcache.numpy else textures.tile_texels(0))]
    yield list(map(int, samples)) == flat(region(picture, 0, tile.x, tile.y, tile.w, tile.h)), "a tile"
    textures.release_tile(0)


def of_arrays(texcache, textures, file, picture, columns):
    """What holds of numpy's arrays."""
    np, how = texcache.numpy, {"swrap": WRAPS[0], "twrap": WRAPS[1], "channels": picture.channels}
    s, t, *steps = (np.array(it).reshape(12, 20) for it in columns)
    wanted = np.array(points(picture, columns, picture.channels), dtype=np.uint16).reshape(12, 20, -1)
    over = np.array(footprints(picture, columns, picture.channels), dtype=np.uint16).reshape(12, 20, -1)
    for kind, scale, most in ((np.uint16, 1, 0), (np.float32, 65535, 1e-7), (np.float16, 65535, 4.9e-4)):
        for out in (np.empty(wanted.shape, kind), np.empty((12, 2, 20, picture.channels), kind)[:, 1],
                    np.empty(wanted.shape, np.dtype(kind).newbyteorder())):
            for call, numbers, values in ((textures.texture, (s, t), wanted), (textures.texture_footprint, (s, t, *steps), over)):
                found = call(file, *numbers, out=out, **how)
                is_so = np.abs(found.astype(float) - values.astype(float) / scale).max() <= most
                yield found is out and is_so, f"out, {out.dtype}, {'' if out.flags.c_contiguous else 'not '}side by side"
    pair = textures.texture_footprint(file, s, t, *(it / 2 for it in steps), width=np.array([2, 2]), **how)
    yield (pair == over).all(), "a width for s and one for t"
    one = np.empty(picture.channels, np.float32)
    yield textures.texture(file, s[0, 0], t[0, 0], out=one, **how) is one and is_near([one], [wanted[0, 0]], 1e-7), "one, out"
    yield (textures.texture(file, s[::2, ::3], t[::2, ::3], **how) == wanted[::2, ::3]).all(), "a part of an array"
    yield (textures.texture(file, s.T, t.T, **how) == wanted.transpose(1, 0, 2)).all(), "an array in another order"
    row = textures.texture(file, s[0], 0.25, **how)
    yield (row == textures.texture(file, s[0], np.full(20, 0.25), **how)).all(), "a number for all"
    grid = textures.texture(file, s[0], t[:, :1], **how)
    yield (grid == textures.texture(file, np.tile(s[0], (12, 1)), np.tile(t[:, :1], 20), **how)).all(), "a row and a column"
    narrow = s.astype(np.float32)
    yield (textures.texture(file, narrow, t, **how) == textures.texture(file, narrow.astype(float), t, **how)).all(), "float32"
    yield textures.texture(file, [0, 1], [0, 1], **how).shape == (2, picture.channels), "lists of whole numbers"
    empty = textures.texture(file, [], [], **how)
    yield empty.shape == (0, picture.channels) and empty.dtype == np.uint16, "no lookups"
    yield textures.texture(file, np.empty((0, 5)), 0.5, floats=True, **how).shape == (0, 5, picture.channels), "no rows"
    out = np.empty((9, 7, picture.channels), np.uint16)
    yield textures.pixels(file, 0, 3, 5, 7, 9, out=out) is out and lists(out) == region(picture, 0, 3, 5, 7, 9), "region, out"
    textures.get_tile(file, 0, 0, 0)
    tile = textures.tile_at(0)
    out = np.empty((tile.h, tile.w, tile.channels), np.uint16)
    yield textures.tile_texels(0, out=out) is out and (out == textures.tile_texels(0)).all(), "tile, out"
    textures.release_tile(0)


def tiles(texcache, folder):
    """What holds of lookups in a UDIM set of three pictures of noise: each is the model's in the picture of its tile."""
    marks = {1001: "n_u1_v1.tif", 1002: "n_u2_v1.tif", 1023: "n_u3_v3.tif"}
    pictures_of = {tile: Picture(name, 40, 30, 3, 16, 16) for tile, name in marks.items()}
    for it in pictures_of.values():
        it.write(Path(folder))
    drawn = random.Random("tiles")
    rows = [(drawn.randrange(2) + drawn.random(), drawn.random()) if drawn.random() < 0.7 else
            (2 + drawn.random(), 2 + drawn.random()) for _ in range(COUNT)]
    columns = [*map(list, zip(*rows)), *([drawn.uniform(-0.05, 0.05) for _ in range(COUNT)] for _ in range(4))]

    def wanted(value, numbers):
        """The model's value in the tile of s and t, at their rest."""
        s, t, *steps = map(model.fine, numbers)
        tile = 1001 + (s >> 32) + 10 * (t >> 32)
        return value(pictures_of[tile], s % 2 ** 32, t % 2 ** 32, steps)

    at_places = [wanted(lambda it, s, t, _: model.point(it, s, t, model.lod_from(0.0), model.BILINEAR, WRAPS, 3), row)
                 for row in zip(*columns)]
    over = [wanted(lambda it, s, t, steps: model.footprint(it, s, t, steps, 16, WRAPS, 3), row) for row in zip(*columns)]
    how = {"swrap": WRAPS[0], "twrap": WRAPS[1]}
    with texcache.Cache(folder) as cache, cache.new_pass() as textures:
        for name in ("n_<UVTILE>.tif", "n_<U>_<V>.tif"):
            found = cache.find(name)
            yield cache.is_udim(found) and cache.udim_tiles(found) == list(marks), f"{name}: tiles"
            yield {it: cache.names()[cache.udim_file(found, it)] for it in marks} == marks, f"{name}: files"
            yield lists(textures.texture(found, *columns[:2], **how)) == at_places, f"{name}: lookups"
            yield [textures.texture(found, s, t, **how) for s, t in zip(*columns[:2])] == at_places, f"{name}: single lookups"
            yield is_near(textures.texture(found, *columns[:2], floats=True, **how), at_places, 1e-7), f"{name}: floats"
            yield lists(textures.texture_footprint(found, *columns, **how)) == over, f"{name}: footprints"
            one = [textures.texture_footprint(found, *row, **how) for row in zip(*columns)]
            yield one == over, f"{name}: single footprints"
        if texcache.numpy:
            np, out = texcache.numpy, texcache.numpy.empty((12, 20, 3), texcache.numpy.uint16)
            s, t = (np.array(it).reshape(12, 20) for it in columns[:2])
            textures.texture(found, s, t, out=out, **how)
            yield (out == np.array(at_places).reshape(12, 20, 3)).all(), "an array of lookups in tiles"
        gaps = textures.texture(found, [0.25, 5.5, columns[0][0]], [0.5, 0.5, columns[1][0]], floats=True,
                                missing_color=[1, 0.5, 0], **how)
        yield lists(gaps)[1] == [1, 0.5, 0] and is_near(lists(gaps)[2:], at_places[:1], 1e-7), "a missing tile among others"


def of_threads(texcache, folder, cases):
    """Threads with a pass each, the passes of threads that have ended, and passes that move."""
    wrong = []
    with texcache.Cache(folder, passes=9, budget=20000) as cache:
        def work(number):
            textures = cache.this_thread()
            for turn in range(6):
                picture, columns, wanted = cases[(number + turn) % len(cases)]
                found = textures.texture(cache.find(picture.name), *columns[:2], swrap=WRAPS[0], twrap=WRAPS[1])
                if lists(found) != wanted:
                    wrong.append((number, picture.name))
            if textures is not cache.this_thread():
                wrong.append((number, "another pass"))

        # eight at once, and more in all than the cache has passes: each ends with its thread
        for _ in range(4):
            threads = [threading.Thread(target=work, args=(it,)) for it in range(8)]
            for it in threads:
                it.start()
            for it in threads:
                it.join()
        yield not wrong, f"threads: {wrong[:3]}"
        with cache.new_pass() as textures:
            picture, columns, wanted = cases[0]
            found = []
            words = (cache.find(picture.name), *columns[:2], 0, *WRAPS)
            thread = threading.Thread(target=lambda: found.append(textures.texture(*words)))
            thread.start()
            thread.join()
            yield lists(found[0]) == wanted, "a pass that another thread made"
    yield "closed" in repr(cache), "a cache that is closed behind its threads"


def main(texcache):
    every, cases = list(pictures()), []
    wrong, count = [], 0
    with tempfile.TemporaryDirectory() as folder:
        for it in every:
            it.write(Path(folder))
        with texcache.Cache(folder) as cache, cache.new_pass() as textures:
            for picture in every:
                columns, file = places(picture.name), cache.find(picture.name)
                cases.append((picture, columns, points(picture, columns, 3)))
                for part in (of_any_python, of_arrays) if texcache.numpy else (of_any_python,):
                    for is_so, what in part(texcache, textures, file, picture, columns):
                        count += 1
                        wrong += [] if is_so else [f"{picture.name}, {what}"]
        for part in (of_threads(texcache, folder, cases), tiles(texcache, folder)):
            for is_so, what in part:
                count += 1
                wrong += [] if is_so else [what]
    print(*(f"not so: {it}" for it in wrong), f"{count} compared, {len(wrong)} wrong", sep="\n")
    return 1 if wrong else 0


if __name__ == "__main__":
    argparse.ArgumentParser(description=__doc__).parse_args()
    import texcache as package  # once the arguments are right: it loads the library
    sys.exit(main(package))
