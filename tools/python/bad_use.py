"""Bad use of each call of the Python package: bad_use FOLDER, the demo's. Every case has to raise the right exception with
a text that names what is wrong. Then come what prints, what help says, and type hints."""
import argparse
import inspect
import math
import os
import pydoc
import sys
import tempfile
import typing

NUMBER = 2 ** 40


def raised(call):
    """What a call raises, and its text."""
    try:
        return None, repr(call())
    except Exception as error:  # whatever it is, it is compared
        return type(error), str(error)


def of_caches(t, folder):
    """Calls, each with the exception and a part of its text."""
    yield lambda: t.Cache(folder + "/nosuch"), t.Refused, "nosuch"
    yield lambda: t.Cache(folder + "/bricks.tif"), t.Refused, "bricks.tif"
    yield lambda: t.Cache(3), TypeError, "folder is 3"
    yield lambda: t.Cache("a\0b"), ValueError, "zero byte"
    yield lambda: t.Cache(folder, budgt=5), TypeError, "'budgt'"
    yield lambda: t.Cache(folder, 1 << 20), TypeError, "positional"
    yield lambda: t.Cache(folder, budget=2 ** 41), t.Refused, "budget"
    yield lambda: t.Cache(folder, budget=2 ** 70), ValueError, "budget is"
    yield lambda: t.Cache(folder, budget=-1), ValueError, "budget is -1"
    yield lambda: t.Cache(folder, budget=1.5), TypeError, "budget is 1.5"
    yield lambda: t.Cache(folder, budget="64M"), TypeError, "'64M'"
    yield lambda: t.Cache(folder, shards=65), t.Refused, "shards"
    yield lambda: t.Cache(folder, shards=0), t.Refused, "shards"
    yield lambda: t.Cache(folder, passes=1025), t.Refused, "passes"
    yield lambda: t.Cache(folder, handles=NUMBER), ValueError, "handles"
    yield lambda: t.Cache(folder, autotile=24), t.Refused, "autotile"
    yield lambda: t.Cache(folder, slots=70000), t.Refused, "slots"
    yield lambda: t.Cache(folder, automip="no"), TypeError, "automip is 'no'"
    yield lambda: t.Cache(folder, automip=2), TypeError, "automip is 2"
    yield lambda: t.Cache(folder, search_path=7), TypeError, "'int'"
    yield lambda: t.Cache(folder, search_path=[7]), TypeError, "search_path is 7"
    yield lambda: t.Cache(folder, search_path=["a:b"]), ValueError, "search_path has the folder 'a:b'"
    yield lambda: t.Cache(folder, search_path="a\0b"), ValueError, "zero byte"
    yield lambda: t.Cache(folder, search_path="x" * 5000), t.Refused, "too long"
    yield lambda: t.Cache(folder, outside_paths="yes"), TypeError, "outside_paths is 'yes'"
    yield lambda: t.Cache(folder, refuse_links=2), TypeError, "refuse_links is 2"
    yield lambda: t.Cache(folder, missing_ms=-1), ValueError, "missing_ms is"


def folder_of(cache):
    return os.path.abspath(cache._folder)


def of_files(t, cache, p, file):
    yield lambda: cache.find("nosuch.tif"), t.Refused, "nosuch.tif"
    yield lambda: cache.find(7), TypeError, "name is 7"
    yield lambda: cache.find("bricks.tif\0"), ValueError, "zero byte"
    yield lambda: cache.find(""), t.Refused, "the name is empty"
    yield lambda: cache.find(folder_of(cache)), t.Refused, "it is a folder"
    yield lambda: cache.find("../nosuch.tif"), t.Refused, "outside_paths"
    yield lambda: cache.find("x" * 5000), t.Refused, "too long"
    yield lambda: cache.find_all("nowhere"), t.Refused, "nowhere: the folder cannot be opened"
    yield lambda: cache.find_all(7), TypeError, "folder is 7"
    yield lambda: cache.find("nosuch.<UDIM>.tif"), t.Refused, "no tile of this name is found"
    yield lambda: cache.udim_tiles(file), t.Refused, "not that of a UDIM set"
    yield lambda: cache.udim_file(file, 1001), t.Refused, "not that of a UDIM set"
    yield lambda: cache.udim_file(file, -1), ValueError, "tile is -1"
    yield lambda: cache.is_udim("wall.<UDIM>.tif"), TypeError, "Cache.find"
    for call in (p.info, p.invalidate, lambda it: p.texture(it, 0, 0), lambda it: p.texture_footprint(it, *[0] * 6),
                 lambda it: p.texture_fixed(it, 0, 0), lambda it: p.texture_d_fixed(it, *[0] * 6),
                 lambda it: p.texture(it, [0.5], [0.5]), lambda it: p.pixels(it, 0, 0, 0, 1, 1),
                 lambda it: p.get_tile(it, 0, 0, 0)):
        yield lambda call=call: call(4099), t.Refused, "4099"
        yield lambda call=call: call("bricks.tif"), TypeError, "Cache.find"
        yield lambda call=call: call(-1), ValueError, "file is -1"
        yield lambda call=call: call(NUMBER), ValueError, "file is"
        yield lambda call=call: call(1.0), TypeError, "file is 1.0"
        yield lambda call=call: call(None), TypeError, "file is None"
    yield lambda: p.invalidate(file, force="yes"), TypeError, "force is 'yes'"


def of_lookups(t, p, file):
    some = [0.5, 0.25]
    for many in (False, True):
        s = some if many else 0.5
        for name, bad in (("channels", 0), ("channels", 9), ("swrap", 4), ("twrap", 4), ("filter", 3), ("lod", math.inf),
                          ("lod", math.nan), ("lod", 1e9), ("first_channel", 8), ("lod_bias", 33), ("lod_bias", math.nan)):
            yield lambda s=s, name=name, bad=bad: p.texture(file, s, s, **{name: bad}), t.Refused, name
        for name, bad in (("channels", NUMBER), ("channels", -1), ("swrap", -1), ("filter", NUMBER), ("first_channel", -1)):
            yield lambda s=s, name=name, bad=bad: p.texture(file, s, s, **{name: bad}), ValueError, f"{name} is {bad}"
        for name, bad in (("channels", "3"), ("swrap", "clamp"), ("filter", 1.5), ("lod", "0"), ("lod", None),
                          ("fill", "black"), ("floats", "yes"), ("grey_to_rgb", 7), ("twrap", [1])):
            yield lambda s=s, name=name, bad=bad: p.texture(file, s, s, **{name: bad}), TypeError, f"{name} is {bad!r}"
        yield lambda s=s: p.texture(file, s, s, chanels=3), TypeError, "'chanels'"
        yield lambda s=s: p.texture(file, s, s, missing_colour=[1, 1, 1]), TypeError, "'missing_colour'"
        yield lambda s=s: p.texture(file, s, s, blur=0.1), TypeError, "'blur'"
        yield lambda s=s: p.texture(file, s, s, missing_color=3), TypeError, "missing_color"
        yield lambda s=s: p.texture(file, s, s, missing_color="red"), TypeError, "missing_color is 'r'"
        yield lambda s=s: p.texture(file, s, s, missing_color=[1]), ValueError, "missing_color has 1"
        yield lambda s=s: p.texture_footprint(file, *[s] * 6, max_probes=0), t.Refused, "max_probes"
        yield lambda s=s: p.texture_footprint(file, *[s] * 6, max_probes=33), t.Refused, "max_probes"
        yield lambda s=s: p.texture_footprint(file, *[s] * 6, blur=-1), t.Refused, "blur"
        yield lambda s=s: p.texture_footprint(file, *[s] * 6, width=(1, 2, 3)), ValueError, "width is"
        yield lambda s=s: p.texture_footprint(file, *[s] * 6, width="wide"), (TypeError, ValueError), "width is"
    for bad, text in ((40000, "40000"), (math.nan, "not a number"), (-math.inf, "inf"), (NUMBER, str(NUMBER))):
        yield lambda bad=bad: p.texture(file, bad, 0.5), t.Refused, text
        yield lambda bad=bad: p.texture(file, some, [0.5, bad]), t.Refused, "lookup 1"
        yield lambda bad=bad: p.texture_footprint(file, 0, 0, bad, 0, 0, 0), t.Refused, "dsdx"
    yield lambda: p.texture(file, 10 ** 400, 0.5), ValueError, "s is larger"
    yield lambda: p.texture(file, "0.5", 0.5), TypeError, ""
    yield lambda: p.texture(file, some, [0.5]), (ValueError, type(None)), ""
    yield lambda: p.texture(file, [1, 2, 3], [1, 2]), ValueError, "s"
    yield lambda: p.texture(file, ["a", "b"], some), TypeError, "s "
    yield lambda: p.texture(file, some, None), TypeError, "t "
    yield lambda: p.texture(file, some, [0.5, 1j]), TypeError, "t "
    for bad in (NUMBER, -2 ** 31 - 1):
        yield lambda bad=bad: p.texture_fixed(file, bad, 0), ValueError, f"s is {bad}"
        yield lambda bad=bad: p.texture_d_fixed(file, 0, 0, 0, bad, 0, 0), ValueError, f"dtdx is {bad}"
        yield lambda bad=bad: p.texture_local_fixed(file, 0, bad), ValueError, f"t is {bad}"
    yield lambda: p.texture_fixed(file, 0.5, 0), TypeError, "s is 0.5"
    yield lambda: p.texture_fixed(file, 0, 0, channels=9), t.Refused, "channels"
    yield lambda: p.texture_fixed(file, 0, 0, lod=-1), ValueError, "lod is -1"


def of_regions(t, p, file):
    for name, at in (("level", 0), ("w", 3), ("h", 4)):
        for bad in (-1, NUMBER):
            words = [0, 0, 0, 1, 1]
            words[at] = bad
            yield lambda words=words: p.pixels(file, *words), ValueError, f"{name} is"
    yield lambda: p.pixels(file, 0, 2 ** 31, 0, 1, 1), ValueError, "x is"
    yield lambda: p.pixels(file, 0, 0, 0.5, 1, 1), TypeError, "y is 0.5"
    yield lambda: p.pixels(file, 0, 0, 0, 2000, 2000), t.Refused, "1048576"
    yield lambda: p.pixels(file, 17, 0, 0, 1, 1), t.Refused, "6 levels"
    yield lambda: p.pixels(file, 0, 0, 0, 2 ** 31, 2 ** 31), t.Refused, "1048576"
    yield lambda: p.get_tile(file, 0, 999999, 0), t.Refused, "texel"
    yield lambda: p.get_tile(file, 0, -1, 0), ValueError, "x is -1"
    yield lambda: p.get_tile(file, 20, 0, 0), t.Refused, "levels"
    for call in (p.tile_at, p.tile_texels, p.release_tile):
        yield lambda call=call: call(3), t.Refused, "3"
        yield lambda call=call: call(-1), ValueError, "place is -1"
        yield lambda call=call: call("0"), TypeError, "place is '0'"
    yield lambda: p.shard_stats(99), t.Refused, "99"
    yield lambda: p.shard_stats(-1), ValueError, "shard is -1"


def of_arrays(t, p, file):
    np = t.numpy
    s = np.array([0.5, 0.25])
    read_only = np.empty((2, 3), np.uint16)
    read_only.flags.writeable = False
    for out, kind, text in ((np.empty((2, 3)), TypeError, "float64"), (np.empty((2, 4), np.uint16), ValueError, "(2, 3)"),
                            (np.empty((3, 2), np.uint16), ValueError, "(2, 3)"), (np.empty(6, np.uint16), ValueError, "(6,)"),
                            (np.empty((2, 3), np.int16), TypeError, "int16"), ([[0] * 3] * 2, TypeError, "list"),
                            (read_only, ValueError, "written")):
        yield lambda out=out: p.texture(file, s, s, out=out), kind, text
        yield lambda out=out: p.texture_footprint(file, s, s, s, s, s, s, out=out), kind, text
    yield lambda: p.texture(file, s, s, floats=True, out=np.empty((2, 3), np.uint16)), TypeError, "uint16"
    yield lambda: p.texture(file, 0.5, 0.5, out=np.empty((1, 3), np.uint16)), ValueError, "(3,)"
    yield lambda: p.pixels(file, 0, 0, 0, 2, 2, out=np.empty((2, 2, 3), np.float32)), TypeError, "float32"
    yield lambda: p.pixels(file, 0, 0, 0, 2, 2, out=np.empty((2, 2), np.uint16)), ValueError, "(2, 2, 3)"
    yield lambda: p.texture(file, s, s[:, None, None].repeat(3, 1).repeat(3, 2)), ValueError, "shapes"
    yield lambda: p.texture(file, s.astype(complex), s), TypeError, "complex"
    yield lambda: p.texture(file, s > 0, s), TypeError, "bool"
    yield lambda: p.texture(file, np.array(["a", "b"]), s), TypeError, "s is an array"
    yield lambda: p.texture(file, [[1], [2, 3]], s), TypeError, "different lengths"


def of_closed(t, folder):
    """A closed cache and an ended pass."""
    cache = t.Cache(folder)
    own, mine, file = cache.this_thread(), cache.new_pass(), cache.find("bricks.tif")
    yield lambda: cache.close(), t.Refused, "pass"
    mine.end()
    mine.end()
    for call in (lambda: mine.info(file), lambda: mine.texture(file, 0, 0), lambda: mine.texture(file, [0], [0]),
                 lambda: mine.texture_fixed(file, 0, 0), lambda: mine.pixels(file, 0, 0, 0, 1, 1), lambda: mine.tile_at(0),
                 lambda: mine.get_tile(file, 0, 0, 0), lambda: mine.tile_texels(0), lambda: mine.release_tile(0),
                 lambda: mine.invalidate(file), mine.invalidate_all, mine.stats, lambda: mine.shard_stats(0), mine.__enter__):
        yield call, t.Closed, "the pass has ended"
    cache.close()
    cache.close()
    for call in (lambda: own.texture(file, 0, 0), lambda: mine.texture(file, 0, 0), lambda: own.texture(file, [0], [0]),
                 lambda: cache.find("bricks.tif"), cache.names, cache.new_pass, cache.this_thread, cache.statistics,
                 cache.statistics_json, lambda: len(cache), cache.__enter__, own.stats):
        yield call, t.Closed, "closed"
    many = t.Cache(folder, passes=3)
    passes = [many.new_pass(), many.new_pass()]
    yield many.new_pass, t.Refused, "passes"
    passes.clear()
    yield lambda: many.new_pass().end(), type(None), ""
    many.close()


def of_text(t, cache, p, file):
    """What prints, what help says, and type hints."""
    yield repr(cache) == f"<texcache.Cache of {cache._folder!r}, {len(cache)} files>", repr(cache)
    yield "Pass of" in repr(p), repr(p)
    yield repr(p.info(file)) == "Info(width=40, height=24, channels=3, depth=8, stored=1, levels=6)", repr(p.info(file))
    text = repr(p.stats())
    yield text.startswith("Statistics(own=Counts(needs=") and "opens=1" in text, text
    yield repr(p.answer).startswith("Answer(generation="), repr(p.answer)
    yield "share=" in repr(p.shard_stats(0)), "a shard"
    yield "lookups" in cache.statistics() and len(cache.statistics(2)) > len(cache.statistics()), "statistics"
    yield cache.statistics_json()["files" if "files" in cache.statistics_json() else "file_count"] == len(cache), "JSON"
    yield cache.names()[file] == "bricks.tif" and len(cache.names()) == len(cache), "names"
    yield cache.find("./nowhere/../bricks.tif") == cache.find(folder_of(cache) + "/bricks.tif") == file, "equal names"
    with tempfile.TemporaryDirectory() as folder:
        for tile in (1001, 1012):
            os.symlink(folder_of(cache) + "/bricks.tif", f"{folder}/b.{tile}.tif")
        with t.Cache(folder) as other:
            udim, own, plain = other.find("b.<UDIM>.tif"), other.this_thread(), p.texture(file, 0.25, 0.5)
            yield other.is_udim(udim) and not other.is_udim(0) and other.udim_tiles(udim) == [1001, 1012], "tiles"
            yield own.texture(udim, 0.25, 0.5) == own.texture(udim, 1.25, 1.5) == plain, "a lookup in a tile"
            yield other.names()[other.udim_file(udim, 1012)] == "b.1012.tif", "the file of a tile"
            many = own.texture(udim, [0.25, 1.25], [0.5, 1.5])
            yield [list(it) for it in many] == [plain, plain], "lookups in two tiles"
            found, said = raised(lambda: own.texture(udim, 5.5, 0.5))
            yield found is t.Refused and "b.<UDIM>.tif: tile 1006: " in said, said
            yield own.texture(udim, 5.5, 0.5, floats=True, missing_color=[1, 0.5, 0]) == [1, 0.5, 0], "a missing tile"
    with t.Cache("/", search_path=["/nowhere", folder_of(cache)]) as other:
        yield other.find("bricks.tif") == 0 and other.names() == [folder_of(cache)[1:] + "/bricks.tif"], "a search path"
    with t.Cache("/", search_path=folder_of(cache)) as other:
        files = [it for it in sorted(os.listdir(folder_of(cache))) if os.path.isfile(os.path.join(folder_of(cache), it))]
        yield other.find_all(folder_of(cache)) == len(files) == len(other), "all files"
    yield repr(t.PERIODIC) == "<Wrap.PERIODIC: 2>" and t.TRILINEAR == 2, "wraps and filters"
    for what in (t, t.Cache, t.Pass, t.Refused, *(getattr(t.Cache, it) for it in dir(t.Cache) if it[0] != "_"),
                 *(getattr(t.Pass, it) for it in dir(t.Pass) if it[0] != "_")):
        name = getattr(what, "__qualname__", what.__name__)
        yield inspect.getdoc(what), f"{name} has no documentation"
        if inspect.isfunction(what):
            hints, words = typing.get_type_hints(what), inspect.signature(what).parameters
            yield "return" in hints and all(it in hints for it in words if it != "self"), f"{name} lacks type hints"
    page = pydoc.plain(pydoc.render_doc(t.Pass))
    yield all(it in page for it in ("first_channel", "missing_color", "texture_footprint(self, file", "fractions of the")), page
    yield all(hasattr(t, it) for it in t.__all__), "what the package offers"


def main(t, folder):
    count, wrong = 0, []

    def compare(cases):
        nonlocal count
        for call, kind, text in cases:
            found, said = raised(call)
            kinds = tuple(None if it is type(None) else it for it in (kind if isinstance(kind, tuple) else (kind,)))
            is_so = found in kinds and text in said
            count += 1
            wrong.extend([] if is_so else [f"case {count}, {inspect.getsource(call).strip()[:90]}: {found} {said!r}"])

    compare(of_caches(t, folder))
    with t.Cache(folder) as cache, cache.new_pass() as textures:
        file = cache.find("bricks.tif")
        compare(of_files(t, cache, textures, file))
        compare(of_lookups(t, textures, file))
        compare(of_regions(t, textures, file))
        if t.numpy:
            compare(of_arrays(t, textures, file))
        else:
            compare([(lambda: textures.texture(file, [0.5], [0.5], out=[0]), TypeError, "numpy is not installed")])
        for is_so, what in of_text(t, cache, textures, file):
            count += 1
            wrong += [] if is_so else [what]
        missing = cache.find("cut.tif")
        pink = [1, 0.5, 0.25]
        found = textures.texture(missing, 0.5, 0.9, floats=True, missing_color=pink)
        compare([(lambda: textures.texture(missing, 0.5, 0.9), t.Refused, "cut.tif")])
        wrong += [] if found == pink and textures.answer.detail else [f"missing_color: {found}"]
    compare(of_closed(t, folder))
    print(*(f"not so: {it}" for it in wrong), f"{count} cases, {len(wrong)} wrong", sep="\n")
    return 1 if wrong else 0


if __name__ == "__main__":
    PARSER = argparse.ArgumentParser(description=__doc__)
    PARSER.add_argument("folder")
    FOLDER = PARSER.parse_args().folder
    import texcache as package  # once the arguments are right: it loads the library
    sys.exit(main(package, FOLDER))
