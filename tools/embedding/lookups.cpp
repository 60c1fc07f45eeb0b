// Lookups on doubles through texcache.hpp: lookups FOLDER, the demo's. Into arrays, vectors and spans, without an
// allocation; many are as many single ones; and what is refused is thrown with the index of the bad lookup.
#include "texcache.hpp"
#include <algorithm>
#include <array>
#include <cmath>
#include <cstdio>
#include <cstdlib>
#include <new>
#if __cplusplus >= 202002L
#include <span>
#endif

using namespace texcache_cpp;

static unsigned long allocations;

// out of line, or the compiler warns of a pair that does not match
__attribute__((noinline)) void *operator new(std::size_t size)
{
    allocations++;
    if (void *at = std::malloc(size)) return at;
    throw std::bad_alloc();
}

__attribute__((noinline)) void operator delete(void *at) noexcept { std::free(at); }
__attribute__((noinline)) void operator delete(void *at, std::size_t) noexcept { std::free(at); }

static int failures;

static void is(bool holds, const char *what)
{
    if (holds) return;
    std::printf("not so: %s\n", what);
    failures++;
}

int main(int count, char **words)
{
    if (count != 2) return 2;
    Cache cache(words[1]);
    Pass pass(cache);
    const std::uint32_t bricks = cache.find("bricks.tif");
    const texcache_texture_options options = texcache_default_texture_options(3);
    std::vector<double> s(100), t(100), dsdx(100, 0.05), dtdx(100, 0.01), dsdy(100, 0.0), dtdy(100, 0.02);
    std::vector<std::uint16_t> points(300), footprints(300);
    std::array<std::uint16_t, 3> one;
    std::uint16_t rgb[3];
    std::size_t done = 0;
    for (std::size_t i = 0; i < 100; i++) s[i] = double(i) / 100, t[i] = double(i * i % 100) / 100;

    pass.texture(bricks, options, 0.5, 0.5, rgb);
    is(rgb[0] == 42919 && rgb[1] == 36494 && rgb[2] == 34759, "the middle of the bricks");
    unsigned long before = allocations;
    std::uint32_t generation = pass.texture_many(bricks, options, s, t, points, &done);
    is(generation == 1 && done == 100, "all points are answered");
    pass.texture_many(bricks, options, s, t, dsdx, dtdx, dsdy, dtdy, footprints, &done);
    is(done == 100, "all footprints are answered");
    bool are_equal = true;
    for (std::size_t i = 0; i < 100; i++) {
        pass.texture(bricks, options, s[i], t[i], one);
        are_equal = are_equal && std::equal(one.begin(), one.end(), points.begin() + 3 * long(i));
        pass.texture_footprint(bricks, options, s[i], t[i], dsdx[i], dtdx[i], dsdy[i], dtdy[i], {rgb, 3});
        are_equal = are_equal && std::equal(rgb, rgb + 3, footprints.begin() + 3 * long(i));
    }
    is(are_equal, "many are as many single ones");
    is(points != footprints, "footprints are not points");
#if __cplusplus >= 202002L
    pass.texture_many(bricks, options, std::span<const double>(s), std::span<const double>(t), std::span(footprints));
    is(points == footprints, "spans are as vectors");
#endif
    is(allocations == before, "nothing was allocated");

    s[42] = std::nan("");
    points[0] = 7;
    try {
        pass.texture_many(bricks, options, s, t, points, &done);
        is(false, "a bad number is refused");
    } catch (const Refused &refused) {
        is(refused.status == TEXCACHE_BAD_REQUEST && refused.answer.detail == TEXCACHE_BAD_PLACE, "by its number");
        is(refused.answer.value == 42 && done == 0 && points[0] == 7, "with its index, and nothing was written");
    }
    try {
        pass.texture_many(bricks, options, s, std::vector<double>(99), points);
        is(false, "arrays of different lengths are refused");
    } catch (const Refused &refused) {
        is(refused.status == TEXCACHE_BAD_ARGUMENT, "as a bad argument");
    }
    std::printf("%d failed\n", failures);
    return failures != 0;
}
