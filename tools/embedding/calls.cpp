// All calls of texcache.hpp, used well and badly: calls FOLDER, the demo's. By exceptions and by error codes; moved
// objects; passes that outlive their cache; and bad arguments, which take no memory.
#include "texcache.hpp"
#include <array>
#include <cmath>
#include <cstdio>
#include <cstdlib>
#include <cstring>
#include <new>
#include <stdlib.h>
#include <thread>
#include <unistd.h>
#if __cplusplus >= 202002L
#include <span>
#endif

using namespace texcache_cpp;

static std::size_t taken;

// out of line, or the compiler warns of a pair that does not match
__attribute__((noinline)) void *operator new(std::size_t size)
{
    taken += size;
    if (void *at = std::malloc(size)) return at;
    throw std::bad_alloc();
}

__attribute__((noinline)) void operator delete(void *at) noexcept { std::free(at); }
__attribute__((noinline)) void operator delete(void *at, std::size_t) noexcept { std::free(at); }

static int failures;

static void is(bool holds, const char *what)
{
    if (holds) return;
    std::printf("not so: %s\n", what);
    failures++;
}

// The call throws this status, and its text has the words.
template <class Call> static void throws(int status, const char *words, Call call)
{
    try {
        call();
        std::printf("not thrown: %s\n", words);
        failures++;
    } catch (const Refused &refused) {
        is(refused.status == status && refused.code() == std::error_code(status, category()), words);
        if (std::strstr(refused.what(), words)) return;
        std::printf("'%s' lacks '%s'\n", refused.what(), words);
        failures++;
    }
}

static const texcache_texture_options three = texcache_default_texture_options(3);

static void opening(const char *folder)
{
    texcache_options bad = texcache_default_options();
    std::error_code code;
    bad.shards = 99;
    throws(TEXCACHE_NO_FOLDER, "nowhere: the folder cannot be opened", [] { Cache cache("nowhere"); });
    throws(TEXCACHE_BAD_OPTIONS, "shards is 99; it may be 1 to 64", [&] { Cache cache(folder, bad); });
    Cache none("nowhere", code);
    is(code.value() == TEXCACHE_NO_FOLDER && code.message() == "folder cannot be read", "the code says so");
    is(!none && none.file_count() == 0 && none.file_name(0).empty(), "there is no cache");
    is(std::strcmp(code.category().name(), "texcache") == 0, "the category has a name");
    none.find("bricks.tif", code);
    is(code.value() == TEXCACHE_BAD_ARGUMENT, "nothing is found in no cache");
    Pass pass(none, code);
    is(code && !pass, "it has no pass");
    throws(TEXCACHE_BAD_ARGUMENT, "cache is NULL", [&] { none.this_thread(); });
    throws(TEXCACHE_BAD_ARGUMENT, "cache is NULL", [&] { none.close(); });
    is(none.statistics_text(2, code).empty() && code, "it has no statistics");
    Cache good(folder, code);
    is(!code && bool(good), "the code is cleared by success");
    throws(TEXCACHE_NO_NAME, "moon.tif: no plain file is found under this name", [&] { good.find("moon.tif"); });
    is(good.find("moon.tif", code) == UINT32_MAX && code.value() == TEXCACHE_NO_NAME, "a name that is not there");
    is(good.file_name(good.find("bricks.tif")) == "bricks.tif" && good.file_name(9999).empty(), "names of files");
    is(good.find("./nowhere/../bricks.tif") == good.find("bricks.tif") && good.file_count() == 1, "names of one file");
    throws(TEXCACHE_BAD_ARGUMENT, "zero byte", [&] { good.find(std::string("bricks.tif\0", 11)); });
    throws(TEXCACHE_BAD_ARGUMENT, "zero byte", [&] { Cache cache(std::string(folder) + '\0'); });
    throws(TEXCACHE_NO_NAME, "the name is empty", [&] { good.find(""); });
    is(good.find_all() > 3 && good.find_all(".", code) + 0u == good.file_count() && !code, "all files of the folder");
    throws(TEXCACHE_NO_FOLDER, "nowhere: ", [&] { good.find_all("nowhere"); });
    throws(TEXCACHE_NO_NAME, "no tile of this name is found", [&] { good.find("moon.<UDIM>.tif"); });
    throws(TEXCACHE_BAD_ARGUMENT, "not that of a UDIM set", [&] { good.udim_tiles(0); });
    is(!good.is_udim(0) && good.udim_file(0, 1001, code) == UINT32_MAX && code, "a file is no UDIM set");
    texcache_options search = texcache_default_options();
    search.search_path = folder;
    Cache elsewhere("/", search);
    is(elsewhere.find("bricks.tif") == 0 && elsewhere.file_count() == 1, "a file of the search path");
}

static void moves(const char *folder)
{
    float rgb[3];
    Cache first(folder), second(std::move(first));
    is(!first && bool(second), "a cache is moved");
    first = std::move(second);
    is(bool(first) && !second, "and back");
    Pass pass(first), other(std::move(pass));
    is(!pass && bool(other), "a pass is moved");
    throws(TEXCACHE_BAD_ARGUMENT, "pass is NULL", [&] { pass.texture(0, three, 0, 0, rgb); });
    pass = std::move(other);
    is(bool(pass) && !other, "and back");
    Pass more(first);
    pass = std::move(more);
    throws(TEXCACHE_PASSES_LEFT, "end all passes first", [&] { first.close(); });
    is(bool(first), "a cache that cannot be closed stays");
    // the pass that was moved over has ended; the cache keeps one, and `pass` is another
    std::vector<Pass> all;
    for (std::uint32_t i = 2; i < texcache_default_options().passes; i++) all.emplace_back(first);
    std::error_code code;
    Pass refused(first, code);
    is(code.value() == TEXCACHE_NO_PERMIT && !refused, "there are as many passes as its option says");
    // a cache is closed with the last of its passes
    std::uint32_t bricks = first.find("bricks.tif");
    { Cache gone(std::move(first)); }
    is(pass.texture(bricks, three, 0.5, 0.5, rgb) == 1, "a pass keeps its cache");
    all.clear();
    pass.end();
    throws(TEXCACHE_BAD_ARGUMENT, "pass is NULL", [&] { pass.end(); });
    Cache again(folder);
    Pass own = again.this_thread();
    is(own.get() == again.this_thread().get(), "a thread has one pass");
    own = Pass(again);
    own.end();
    again.close();
    is(!again, "a cache is closed");
}

static void values(Cache &cache, Pass &pass)
{
    const std::uint32_t bricks = cache.find("bricks.tif");
    std::uint16_t units[3];
    float floats[3];
    std::array<float, 6> two;
    std::vector<double> s = {0.5, 0.25}, t = {0.5, 0.75}, d = {0.05, 0.05}, none = {0, 0};
    std::size_t done = 0;
    std::error_code code;
    is(pass.texture(bricks, three, 0.5, 0.5, units) == 1 && units[0] == 42919 && units[1] == 36494 && units[2] == 34759,
       "the middle of the bricks");
    is(pass.texture(bricks, three, 0.5, 0.5, floats) == 1 && floats[2] == texcache_float(34759), "as floats");
    is(pass.answer().generation == 1, "the answer has the generation");
    pass.texture_many(bricks, three, s, t, two, &done);
    is(done == 2 && two[0] == floats[0] && two[2] == floats[2], "many floats");
    pass.texture_footprint(bricks, three, 0.5, 0.5, 0.05, 0, 0, 0.05, floats);
    pass.texture_footprint(bricks, three, 0.5, 0.5, 0.05, 0, 0, 0.05, units);
    pass.texture_many(bricks, three, s, t, d, none, none, d, two, &done);
    is(done == 2 && two[1] == floats[1] && two[1] == texcache_float(units[1]), "many footprints as floats");
#if __cplusplus >= 202002L
    pass.texture_many(bricks, three, std::span<const double>(s), std::span<const double>(t), std::span<float>(two));
#endif
    float ds[6], dt[6];
    texcache_coordinates at = {s.data(), t.data(), nullptr, nullptr, nullptr, nullptr, 1};
    const texcache_results results = {sizeof results, TEXCACHE_FLOAT, 6, two.data(), ds, dt};
    is(pass.texture_results(bricks, three, at, 2, results, &done) == 1 && std::isfinite(ds[5]), "derivatives");
    throws(TEXCACHE_BAD_REQUEST, "lookup 1: s is not a number", [&] {
        s[1] = std::nan("");
        pass.texture_many(bricks, three, s, t, two, &done);
    });
    is(done == 0 && pass.answer().value == 1, "the answer has the index");
    is(pass.texture_many(bricks, three, s, t, two, &done, code) == 0 && code.value() == TEXCACHE_BAD_REQUEST, "as a code");
    throws(TEXCACHE_BAD_ARGUMENT, "different lengths", [&] { pass.texture_many(bricks, three, s, none.empty() ? s : std::vector<double>(3), two); });
    done = 7;
    pass.texture_many(bricks, three, s, std::vector<double>(1), two, &done, code);
    is(code.value() == TEXCACHE_BAD_ARGUMENT && done == 0, "different lengths as a code");
    throws(TEXCACHE_SMALL_BUFFER, "room for 2 values, and 3 are needed", [&] { pass.texture(bricks, three, 0, 0, {units, 2}); });
    throws(TEXCACHE_SMALL_BUFFER, "room for 0 values", [&] { pass.texture(bricks, three, 0, 0, std::vector<float>()); });
    throws(TEXCACHE_BAD_ARGUMENT, "NULL", [&] { pass.texture(bricks, three, 0, 0, Span<float>(nullptr, 3)); });
    pass.texture_many(bricks, three, std::vector<double>(), std::vector<double>(), std::vector<float>(), &done);
    is(done == 0, "no lookup at all");
    throws(TEXCACHE_NO_FILE, "number 9999", [&] { pass.info(9999); });
    is(pass.info(bricks).channels == 3, "the size of a file");
}

// A UDIM set: bricks at 0 0 and 1 1, rings at 1 0. Each lookup is that of the tile's file at the rest.
static void tiles(const char *demo)
{
    char folder[] = "/tmp/texcache-calls-XXXXXX";
    if (!mkdtemp(folder)) return is(false, "a folder for tiles");
    const std::string at = std::string(folder) + "/";
    static const char *const files[][2] = {{"w_u0_v0.tif", "bricks.tif"}, {"w_u1_v0.tif", "rings.tif"}, {"w_u1_v1.tif", "bricks.tif"}};
    for (const auto &it : files) is(!symlink((std::string(demo) + "/" + it[1]).c_str(), (at + it[0]).c_str()), "a tile");
    {
        Cache cache(folder);
        Pass pass(cache);
        const std::uint32_t set = cache.find("w_<uvtile>.tif"), same = cache.find("./w_<u>_<v>.tif"), bricks = cache.find("w_u0_v0.tif");
        is(cache.is_udim(set) && cache.is_udim(same) && !cache.is_udim(bricks) && cache.file_name(set) == "w_<uvtile>.tif", "a set");
        is(cache.udim_tiles(set) == std::vector<std::uint32_t>({1001, 1002, 1012}), "its tiles");
        is(cache.udim_file(set, 1001) == bricks && cache.file_name(cache.udim_file(set, 1012)) == "w_u1_v1.tif", "their files");
        std::uint16_t units[3], wanted[3];
        float floats[3];
        for (double more : {0.0, 1.0}) {
            is(pass.texture(set, three, 0.5 + more, 0.5 + more, units) == 1 && units[0] == 42919 && units[1] == 36494 && units[2] == 34759,
               "the middle of the bricks in a set");
            pass.texture(same, three, 0.5 + more, 0.5 + more, floats);
            is(floats[2] == texcache_float(34759), "as floats");
        }
        const std::uint32_t rings = cache.udim_file(set, 1002);
        std::vector<double> s, t, d, none;
        for (int i = 0; i < 200; i++) s.push_back((i * 37 % 200) / 100.0), t.push_back(i / 100.0), d.push_back(0.05), none.push_back(0);
        for (int i = 0; i < 200; i++) t[std::size_t(i)] -= s[std::size_t(i)] < 1 && t[std::size_t(i)] >= 1;
        std::vector<std::uint16_t> many(600), over(600);
        std::size_t done = 0;
        pass.texture_many(set, three, s, t, many, &done);
        is(done == 200, "many lookups in a set");
        pass.texture_many(set, three, s, t, d, none, none, d, over);
        bool is_so = true;
        for (std::size_t i = 0; i < 200; i++) {
            const double in_s = s[i] - std::floor(s[i]), in_t = t[i] - std::floor(t[i]);
            const std::uint32_t file = s[i] >= 1 && t[i] < 1 ? rings : bricks;
            pass.texture(file, three, in_s, in_t, wanted);
            is_so = is_so && !std::memcmp(wanted, &many[3 * i], sizeof wanted);
            pass.texture_footprint(file, three, in_s, in_t, 0.05, 0, 0, 0.05, wanted);
            is_so = is_so && !std::memcmp(wanted, &over[3 * i], sizeof wanted);
        }
        is(is_so, "each is that of its tile");
        texcache_lookup fixed = texcache_lookup_at(98304, 98304, 0, 3);
        is(pass.texture_fixed(set, fixed, units) == 1 && units[0] == 42919, "in the program's units");
        throws(TEXCACHE_NO_TILE, "w_<uvtile>.tif: tile 1011: no plain file", [&] { pass.texture(set, three, 0.5, 1.5, units); });
        is(pass.answer().detail == 1011, "the answer has the tile");
        texcache_texture_options pink = three;
        const float color[] = {1, 0, 0.5f};
        pink.missing_color = color;
        pass.texture(set, pink, 0.5, 1.5, floats);
        is(floats[0] == 1 && floats[2] == 0.5f, "the color of a missing tile");
        throws(TEXCACHE_NO_FILE, "this is a UDIM set", [&] { pass.info(set); });
    }
    for (const auto &it : files) unlink((at + it[0]).c_str());
    rmdir(folder);
}

static void bad_fixed(Pass &pass, std::uint32_t bricks)
{
    std::uint16_t out[8];
    std::error_code code;
    texcache_lookup r = texcache_lookup_at(32768, 32768, 0, 3);
    is(pass.texture_fixed(bricks, r, out) == 1 && out[0] == 42919, "a lookup in the program's units");
    is(pass.texture_local_fixed(bricks, r, out, code) && !code && out[2] == 34759, "from the latest tiles");
    r.lod = 5 * 65536;
    is(!pass.texture_local_fixed(bricks, r, out, code) && !code, "which do not have another level");
    is(pass.texture_d_fixed(bricks, r, out) == 1, "along a footprint");
    // what D14 was: a status of a bad number, with a filled answer, and no memory
    for (std::uint32_t channels : {0u, 9u, 4294967295u}) {
        r.channels = channels;
        std::size_t before = taken;
        pass.texture_fixed(bricks, r, out, code);
        is(code.value() == TEXCACHE_BAD_REQUEST && pass.answer().detail == TEXCACHE_BAD_CHANNELS && pass.answer().generation == 0,
           "a bad number of channels is refused");
        is(pass.texture_local_fixed(bricks, r, out, code) == false && code.value() == TEXCACHE_BAD_REQUEST, "from the tiles too");
        is(taken == before, "and takes no memory");
    }
}

static void regions_and_tiles(Cache &cache, Pass &pass)
{
    const std::uint32_t bricks = cache.find("bricks.tif"), cut = cache.find("cut.tif");
    std::error_code code;
    Pixels pixels = pass.pixels(bricks, {0, 0, 0, 4, 2});
    std::uint16_t some[24];
    is(pixels.values.size() == 24 && pixels.channels == 3 && pixels.generation == 1, "a region");
    is(pass.pixels(bricks, {0, 0, 0, 4, 2}, some) == 1 && !std::memcmp(some, pixels.values.data(), sizeof some), "into an array");
    throws(TEXCACHE_SMALL_BUFFER, "room for 23 values, and 24 are needed", [&] { pass.pixels(bricks, {0, 0, 0, 4, 2}, {some, 23}); });
    std::size_t before = taken;
    is(pass.pixels(bricks, {99, 0, 0, 1024, 1024}, code).values.empty() && code.value() == TEXCACHE_NO_LEVEL, "no such level");
    is(pass.pixels(bricks, {0, 0, 0, 4294967295u, 4294967295u}, code).values.empty() && code.value() == TEXCACHE_REGION_TOO_LARGE,
       "a region that is too large");
    is(pass.pixels(cut, {0, 0, 0, 1024, 1024}, code).values.empty() && code.value() == TEXCACHE_BAD_FILE, "of a bad file");
    is(pass.pixels(9999, {0, 0, 0, 1024, 1024}, code).values.empty() && code.value() == TEXCACHE_NO_FILE, "of no file");
    is(taken == before, "a bad region takes no memory");
    throws(TEXCACHE_BAD_FILE, "cut.tif: the file is not accepted: strip or tile 2 of level 0", [&] { pass.info(cut); });
    is(pass.answer().detail == 12 && pass.answer().value == 2, "the answer has the fault");
    is(pass.get_tile(bricks, 0, 1, 1) == 1 && pass.stats().pass.holds == 1, "a tile is held");
    texcache_tile tile = pass.tile_at(0);
    std::vector<std::uint16_t> texels = pass.tile_texels(0), same(texels.size());
    pass.tile_texels(0, same);
    is(texels.size() == std::size_t(tile.w) * tile.h * tile.channels && texels == same, "its texels");
    throws(TEXCACHE_SMALL_BUFFER, "are needed", [&] { pass.tile_texels(0, some); });
    pass.release_tile(0);
    throws(TEXCACHE_NOTHING_HELD, "no tile at place 0", [&] { pass.release_tile(0); });
    is(pass.tile_texels(0, code).empty() && code.value() == TEXCACHE_NOTHING_HELD, "of no tile");
    pass.tile_at(3, code);
    is(code.value() == TEXCACHE_NOTHING_HELD && pass.get_tile(bricks, 0, 99999, 0, code) == 0 && code.value() == TEXCACHE_OUTSIDE,
       "outside");
    is(pass.invalidate(bricks) == 1 && pass.invalidate(bricks, true) == 1, "a file is checked");
    pass.invalidate_all();
    is(pass.shard_stats(0).share > 0, "a shard");
    throws(TEXCACHE_NO_PART, "no shard 99", [&] { pass.shard_stats(99); });
}

static void texts(Cache &cache, Pass &pass)
{
    std::string text = cache.statistics_text(), json = cache.statistics_json();
    is(text.find("bricks.tif") != std::string::npos && text.back() == '\n' && text.find('\0') == std::string::npos, "a text");
    is(json.front() == '{' && json.find("\"lookups\": ") != std::string::npos && json.back() == '\n', "JSON");
    is(cache.statistics_text(1).find("bricks.tif") == std::string::npos, "totals alone");
    // the text while another thread counts, which makes it longer
    std::thread other([&] {
        Pass own = cache.this_thread();
        std::uint16_t rgb[3];
        for (int i = 0; i < 20000; i++) own.texture(cache.find("rings.tif"), three, i / 997.0, i / 991.0, rgb);
    });
    for (int i = 0; i < 100; i++) cache.statistics_json();
    other.join();
    is(bool(pass), "the pass is as it was");
}

int main(int count, char **words)
{
    if (count != 2) return 2;
    opening(words[1]);
    moves(words[1]);
    Cache cache(words[1]);
    Pass pass(cache);
    values(cache, pass);
    tiles(words[1]);
    bad_fixed(pass, cache.find("bricks.tif"));
    regions_and_tiles(cache, pass);
    texts(cache, pass);
    std::printf("%d failed\n", failures);
    return failures != 0;
}
