// calls.cpp: what a warm bilinear lookup costs, by the calls of one library: calls FOLDER NAME KIND LIST LOOKUPS. Compiled
// with -DUSE_OIIO its calls are OpenImageIO's, and otherwise those of texcache_oiio.hpp and of texcache.h.
//
// KIND is call (TextureSystem::texture), batch (its batches), and without OpenImageIO c (texcache_texture), many
// (texcache_texture_many, 64 in a call) or floats (as many, by texcache_texture_results). LIST is scan (all texels of some
// rows from left to right) or random. If NAME is that of a UDIM set, its tiles at 0 0 and 1 0 take turns. Prints
// nanoseconds of processor time for a lookup, and the sum of all values.
#ifdef USE_OIIO
#    include <OpenImageIO/texture.h>
#else
#    define OIIO_TEXTURE_SIMD_BATCH_WIDTH 64
#    include <texcache_oiio.hpp>
namespace OIIO = texcache_oiio;
#endif

#include <cstdint>
#include <cstdio>
#include <cstdlib>
#include <string>
#include <time.h>
#include <vector>

using namespace OIIO;

namespace {

constexpr int side = 1024, rows = 48, count = side * rows;
std::vector<float> s, t;

void stop(const std::string &what)
{
    std::fprintf(stderr, "calls: %s\n", what.c_str());
    std::exit(1);
}

double now()
{
    timespec at;
    clock_gettime(CLOCK_PROCESS_CPUTIME_ID, &at);
    return double(at.tv_sec) * 1e9 + double(at.tv_nsec);
}

// The places of a list, a little behind the middles of texels.
void fill(bool is_random)
{
    std::uint64_t drawn = 1;
    for (int i = 0; i < count; i++) {
        int x = i % side, y = 5 + i / side * (side / rows);
        if (is_random) {
            drawn = drawn * 6364136223846793005u + 1442695040888963407u;
            x = int(drawn >> 33) & (side - 1), y = int(drawn >> 48) & (side - 1);
        }
        s.push_back((float(x) + 0.78f) / side);
        t.push_back((float(y) + 0.78f) / side);
    }
}

// Moves a half of the places into the next tile of a UDIM set: every other row, or any place.
void use_tiles(bool is_random)
{
    std::uint64_t drawn = 1;
    for (int i = 0; i < count; i++) {
        drawn = drawn * 6364136223846793005u + 1442695040888963407u;
        s[i] += float(is_random ? drawn >> 63 : i / side % 2);
    }
}

// One pass over the list by the calls of TextureSystem.
double by_calls(TextureSystem *system, TextureSystem::TextureHandle *file, TextureSystem::Perthread *own)
{
    TextureOpt options;
    options.swrap = options.twrap = TextureOpt::WrapClamp;
    options.interpmode = TextureOpt::InterpBilinear;
    options.mipmode = TextureOpt::MipModeNoMIP;
    double sum = 0;
    for (int i = 0; i < count; i++) {
        float rgb[3];
        if (!system->texture(file, own, options, s[i], t[i], 0, 0, 0, 0, 3, rgb)) stop(system->geterror());
        sum += rgb[0] + rgb[1] + rgb[2];
    }
    return sum;
}

double by_batches(TextureSystem *system, TextureSystem::TextureHandle *file, TextureSystem::Perthread *own)
{
    constexpr int W = Tex::BatchWidth;
    TextureOptBatch options;
    alignas(Tex::BatchAlign) float none[W] = {0}, values[3 * W];
    for (int i = 0; i < W; i++) {
        options.sblur[i] = options.tblur[i] = options.rblur[i] = 0;
        options.swidth[i] = options.twidth[i] = options.rwidth[i] = 1;
    }
    options.swrap = options.twrap = Tex::Wrap::Clamp;
    options.interpmode = Tex::InterpMode::Bilinear;
    options.mipmode = Tex::MipMode::NoMIP;
    double sum = 0;
    for (int i = 0; i < count; i += W) {
        if (!system->texture(file, own, options, Tex::RunMaskOn, &s[i], &t[i], none, none, none, none, 3, values))
            stop(system->geterror());
        for (float it : values) sum += it;
    }
    return sum;
}

#ifndef USE_OIIO
// One pass by the calls of texcache.h.
double in_c(texcache_pass *pass, std::uint32_t file, const std::string &kind)
{
    texcache_texture_options options = texcache_default_texture_options(3);
    options.swrap = options.twrap = TEXCACHE_CLAMP;
    std::uint16_t values[3 * 64];
    float floats[3 * 64];
    double at[2][64], sum = 0;
    if (kind == "c") {
        for (int i = 0; i < count; i++) {
            if (texcache_texture(pass, file, &options, s[i], t[i], values, 3, nullptr)) stop(texcache_last_error());
            sum += values[0] + values[1] + values[2];
        }
        return sum / 65535;
    }
    const texcache_coordinates places = {at[0], at[1], nullptr, nullptr, nullptr, nullptr, 1};
    texcache_results results = texcache_results();
    results.size = sizeof results, results.type = TEXCACHE_FLOAT, results.room = 3 * 64, results.values = floats;
    for (int i = 0; i < count; i += 64) {
        for (int k = 0; k < 64; k++) at[0][k] = s[i + k], at[1][k] = t[i + k];
        int error = kind == "many" ? texcache_texture_many(pass, file, &options, &places, 64, values, 3 * 64, nullptr, nullptr)
                                   : texcache_texture_results(pass, file, &options, &places, 64, &results, nullptr, nullptr);
        if (error) stop(texcache_last_error());
        for (int k = 0; k < 3 * 64; k++) sum += kind == "many" ? values[k] / 65535.0 : floats[k];
    }
    return sum;
}
#endif

}  // namespace

int main(int number, char **words)
{
    if (number != 6) return 2;
    std::string folder = words[1], kind = words[3];
    const bool is_random = std::string(words[4]) == "random";
    fill(is_random);
    if (std::string(words[2]).find("<UDIM>") != std::string::npos) use_tiles(is_random);
    long passes = std::atol(words[5]) / count;
    TextureSystem *system = TextureSystem::create(false);
    system->attribute("max_memory_MB", 256.0f);
    TextureSystem::Perthread *own = system->get_perthread_info();
    TextureSystem::TextureHandle *file = system->get_texture_handle(ustring(folder + "/" + words[2]), own);
#ifndef USE_OIIO
    texcache *cache = nullptr;
    texcache_pass *pass = nullptr;
    std::uint32_t at = 0;
    if (texcache_open(&cache, words[1], nullptr) || texcache_this_thread(cache, &pass) || texcache_find(cache, words[2], &at))
        stop(texcache_last_error());
#endif
    auto once = [&] {
#ifndef USE_OIIO
        if (kind != "call" && kind != "batch") return in_c(pass, at, kind);
#endif
        return kind == "call" ? by_calls(system, file, own) : by_batches(system, file, own);
    };
    double sum = once(), began = now();
    for (long i = 0; i < passes; i++) sum = once();
    std::printf("ns %.2f sum %.1f\n", passes ? (now() - began) / double(passes) / count : 0, sum);
    TextureSystem::destroy(system);
    return 0;
}
