// Lookups on doubles and over footprints, of texcache and of OpenImageIO's TextureSystem: oiio_footprints FOLDER MODE.
// footprints.py makes the textures in FOLDER, builds this program and says what each MODE prints.
#include "texcache.h"

#include <OpenImageIO/texture.h>

#include <algorithm>
#include <chrono>
#include <cmath>
#include <cstdio>
#include <cstdlib>
#include <functional>
#include <map>
#include <string>
#include <vector>

using namespace OIIO;

namespace {

struct Place {
    double s, t, dsdx, dtdx, dsdy, dtdy;
};

using Filter = std::function<double(const Place &)>;  // a grey value, 0 to 255

std::string folder;
bool is_check;  // texcache alone, and beside limits
int failures;
texcache *cache;
texcache_pass *pass;
TextureSystem *oiio_system;

void stop(const std::string &what)
{
    std::fprintf(stderr, "oiio_footprints: %s\n", what.c_str());
    std::exit(1);
}

// In a check a number that is above its limit is a failure.
void limit(const char *what, double found, double most)
{
    if (!is_check || found <= most) return;
    std::printf("%s: %g, and may be %g\n", what, found, most);
    failures++;
}

std::uint32_t file_of(const char *name)
{
    std::uint32_t file;
    if (int error = texcache_find(cache, name, &file)) stop(texcache_error_string(error));
    return file;
}

// texcache: over a footprint, or at a place if it has no size.
Filter ours(const char *name, std::uint32_t max_probes)
{
    std::uint32_t file = file_of(name);
    return [=](const Place &p) {
        texcache_texture_options options = texcache_default_texture_options(1);
        options.max_probes = max_probes;
        std::uint16_t value;
        if (int error = texcache_texture_footprint(pass, file, &options, p.s, p.t, p.dsdx, p.dtdx, p.dsdy, p.dtdy, &value, 1,
                                                   nullptr))
            stop(texcache_error_string(error));
        return value / 257.0;
    };
}

std::int32_t rounded(double value) { return std::int32_t(std::floor(65536 * value + 0.5)); }

// texcache in 1/65536 of the image, along the longer of the two steps.
Filter fixed(const char *name)
{
    std::uint32_t file = file_of(name);
    return [=](const Place &p) {
        texcache_lookup r = texcache_lookup_at(rounded(p.s), rounded(p.t), 0, 1);
        r.dsdx = rounded(p.dsdx), r.dtdx = rounded(p.dtdx), r.dsdy = rounded(p.dsdy), r.dtdy = rounded(p.dtdy);
        std::uint16_t value;
        if (int error = texcache_texture_d_fixed(pass, file, &r, &value, 1, nullptr)) stop(texcache_error_string(error));
        return value / 257.0;
    };
}

// OpenImageIO: bilinear probes, at most 16 of them.
Filter oiio(const char *name)
{
    TextureSystem::Perthread *own = oiio_system->get_perthread_info();
    TextureSystem::TextureHandle *file = oiio_system->get_texture_handle(ustring(folder + "/" + name), own);
    return [=](const Place &p) {
        TextureOpt options;
        options.swrap = options.twrap = TextureOpt::WrapPeriodic;
        options.interpmode = TextureOpt::InterpBilinear;
        options.anisotropic = 16;
        float value;
        if (!oiio_system->texture(file, own, options, float(p.s), float(p.t), float(p.dsdx), float(p.dtdx), float(p.dsdy),
                                  float(p.dtdy), 1, &value))
            stop(oiio_system->geterror());
        return 255.0 * value;
    };
}

double drawn()
{
    static std::uint64_t random = 1;
    random = random * 6364136223846793005u + 1442695040888963407u;
    return double(random >> 11) / 9007199254740992.0;
}

constexpr double degree = 3.14159265358979323846 / 180;

// A footprint of these axes in texels, its longer axis and its pixel grid turned by degrees.
Place shaped(double side, double major, double minor, double axis, double grid)
{
    auto step = [&](double angle, double &ds, double &dt) {
        double x = major * std::cos(angle), y = minor * std::sin(angle);
        ds = (x * std::cos(axis * degree) - y * std::sin(axis * degree)) / side;
        dt = (x * std::sin(axis * degree) + y * std::cos(axis * degree)) / side;
    };
    Place p = {0, 0, 0, 0, 0, 0};
    step(grid * degree, p.dsdx, p.dtdx);
    step((grid + 90) * degree, p.dsdy, p.dtdy);
    return p;
}

std::vector<Place> places(std::size_t count)
{
    std::vector<Place> found(count);
    for (auto &it : found) it = {drawn(), drawn(), 0, 0, 0, 0};
    return found;
}

double at(const Filter &filter, Place shape, const Place &where)
{
    shape.s = where.s, shape.t = where.t;
    return filter(shape);
}

// The standard deviation of the values, of 1.
double contrast(const Filter &filter, const Place &shape, const std::vector<Place> &where)
{
    double sum = 0, squares = 0;
    for (const auto &it : where) {
        double value = at(filter, shape, it) / 255;
        sum += value, squares += value * value;
    }
    double mean = sum / double(where.size());
    return std::sqrt(std::max(0.0, squares / double(where.size()) - mean * mean));
}

void contrasts()
{
    const auto where = places(3000);
    std::printf("contrast of noise, and of stripes 4 texels wide (least over the angles of the grid)\n");
    std::printf("%6s %-12s %8s %8s %8s %8s %9s %9s\n", "r", "filter", "0", "15", "30", "45", "spread", "stripes");
    std::vector<std::pair<const char *, std::function<Filter(const char *)>>> filters = {
        {"16 probes", [](const char *n) { return ours(n, 16); }}, {"32 probes", [](const char *n) { return ours(n, 32); }}};
    if (!is_check) filters.insert(filters.begin(), {"texd", fixed}), filters.push_back({"OpenImageIO", oiio});
    // what the model of the definitions has, on another noise
    const std::map<int, double> model = {{2, .2479}, {4, .1870}, {8, .1332}, {16, .0742}, {32, .0934}};
    for (double r : {2.0, 4.0, 8.0, 16.0})
        for (const auto &it : filters) {
            Filter noise = it.second("noise.tif"), stripes = it.second("stripes.tif");
            double spread = 0, four[4], least = 1;
            for (double axis : {0.0, 30.0}) {
                double low = 1, high = 0;
                for (int grid = 0; grid <= 90; grid += 5) {
                    double found = contrast(noise, shaped(1024, r, 1, axis, grid), where);
                    low = std::min(low, found), high = std::max(high, found);
                    if (axis == 0 && grid % 15 == 0 && grid <= 45) four[grid / 15] = found;
                    if (axis == 0) least = std::min(least, contrast(stripes, shaped(1024, r, 1, 90, grid), where));
                }
                spread = std::max(spread, high / low - 1);
            }
            std::printf("%6.0f %-12s %8.4f %8.4f %8.4f %8.4f %7.1f %% %9.3f\n", r, it.first, four[0], four[1], four[2], four[3],
                        100 * spread, least);
            double wanted = model.at(r == 16 && it.first[0] == '3' ? 32 : int(r));
            limit("contrast beside the model's", std::fabs(four[0] / wanted - 1), 0.05);
            limit("spread of the contrast over the angles of the grid", spread, 0.001);
        }
}

// The greatest difference of a value from one frame to the next, of 255, at 400 places.
double jump(const Filter &filter, const std::function<Place(double)> &frame, int frames, const std::vector<Place> &where)
{
    double greatest = 0;
    std::vector<double> before(where.size());
    for (int n = 0; n <= frames; n++) {
        Place shape = frame(double(n) / frames);
        for (std::size_t i = 0; i < where.size(); i++) {
            double value = at(filter, shape, where[i]);
            if (n) greatest = std::max(greatest, std::fabs(value - before[i]));
            before[i] = value;
        }
    }
    return greatest;
}

void jumps()
{
    const auto where = places(400);
    const double side = 1024;
    // each with the greatest jump that the model of the definitions has in 300 frames, on another noise
    struct Shot {
        const char *name;
        double most;
        std::function<Place(double)> frame;
    };
    const std::vector<Shot> scenes = {
        {"zoom 0.5 to 64, 8:1", 4.7,
         [=](double k) { double m = 0.5 * std::exp2(7 * k); return shaped(side, 8 * m, m, 20, 35); }},
        {"ratio 1 to 20", 6.2, [=](double k) { return shaped(side, 2 * (1 + 19 * k), 2, 20, 35); }},
        {"nearly round, 1 to 1.5", 0.2, [=](double k) { return shaped(side, 2 * (1 + 0.5 * k), 2, 20, 35); }},
        {"grid turned, 8:1", 0.03, [=](double k) { return shaped(side, 16, 2, 20, 90 * k); }},
        {"axis turned, 8:1", 6.2, [=](double k) { return shaped(side, 16, 2, 90 * k, 35); }},
        {"round, axis turned", 0.01, [=](double k) { return shaped(side, 2, 2, 90 * k, 35); }}};
    if (is_check) {
        for (const auto &scene : scenes)
            for (std::uint32_t probes : {16u, 32u})
                limit(scene.name, jump(ours("noise.tif", probes), scene.frame, 300, where), scene.most);
        return;
    }
    std::printf("greatest jump from frame to frame, of 255: 300 frames -> 3000\n");
    std::printf("%-24s %18s %18s %18s %18s\n", "scene", "texd", "16 probes", "32 probes", "OpenImageIO");
    for (const auto &scene : scenes) {
        std::printf("%-24s", scene.name);
        for (const auto &it : {fixed("noise.tif"), ours("noise.tif", 16), ours("noise.tif", 32), oiio("noise.tif")})
            std::printf("  %6.2f -> %6.2f", jump(it, scene.frame, 300, where), jump(it, scene.frame, 3000, where));
        std::printf("\n");
    }
}

// A close view of a texture of 8192 texels: pixels that differ from the exact bilinear value of doubles, and by how much.
void magnified()
{
    Filter fine = ours("wide.tif", 16), coarse = fixed("wide.tif"), other = oiio("wide.tif");
    std::vector<std::pair<const char *, Filter>> both = {{"1/65536", coarse}, {"doubles", fine}};
    for (const auto &it : both) {
        long differ = 0, count = 0;
        double greatest = 0, sum = 0;
        for (double zoom : {1.0 / 4, 1.0 / 16, 1.0 / 50})
            for (int view = 0; view < 40; view++) {
                double s = drawn(), t = drawn();
                for (int y = 0; y < 40; y++)
                    for (int x = 0; x < 64; x++) {
                        Place p = {double(float(s + x * zoom / 8192)), double(float(t + y * zoom / 512)), 0, 0, 0, 0};
                        double by = std::fabs(it.second(p) - other(p));
                        differ += std::floor(it.second(p) + 0.5) != std::floor(other(p) + 0.5), count++;
                        greatest = std::max(greatest, by), sum += by * by;
                    }
            }
        std::printf("magnified, %s beside OpenImageIO: %ld pixels, %.2f %% differ in 8 bits, RMS %.4f, greatest %.3f of 255\n",
                    it.first, count, 100.0 * double(differ) / double(count), std::sqrt(sum / double(count)), greatest);
        if (it.first[0] == 'd') limit("bilinear beside OpenImageIO, of 255", greatest, 0.02);
    }
}

// A slow zoom into a ramp of 2048 of 65535 a texel, up and down every 32 texels, in a texture of 8192.
void ramp()
{
    const double slope = 2048;
    std::vector<std::pair<const char *, Filter>> all = {
        {"1/65536", fixed("ramp.tif")}, {"doubles", ours("ramp.tif", 16)}, {"OpenImageIO", oiio("ramp.tif")}};
    for (const auto &it : all) {
        long over = 0, count = 0;
        double greatest = 0;
        for (int frame = 0; frame <= 1000; frame++) {
            double step = 0.5 * std::exp2(-8.0 * frame / 1000), before = 0;
            for (int x = 0; x < 320; x++) {
                double value = 257 * it.second({0.3 + (x - 160) * step / 8192, 0.5, 0, 0, 0, 0});
                if (x) {
                    // both values are rounded, and the places to 1/65536 of a texel
                    double more = std::fabs(value - before) - slope * step - 1 - slope / 65536;
                    over += more > 0, count++, greatest = std::max(greatest, more);
                }
                before = value;
            }
        }
        std::printf("zoom into a ramp, %s: %ld of %ld neighbours differ by more than the ramp, by up to %.1f of 65535\n",
                    it.first, over, count, greatest);
        if (it.first[0] == 'd') limit("neighbours that differ by more than the ramp", double(over), 0);
    }
}

struct Scene {
    const char *name, *file;
    double roll;
    bool is_near;
};

// A plane seen by a camera that is rolled by degrees: where the ray of a pixel of 256 by 256 meets it. In the near one
// most pixels are about as large as a texel, in the far one they are some four times as long.
void meets(const Scene &scene, double x, double y, double &s, double &t)
{
    const double roll = scene.roll;
    double a = (x - 128) / 128 * 0.6, b = (y - 128) / 128 * 0.6;
    double u = a * std::cos(roll * degree) - b * std::sin(roll * degree);
    double v = a * std::sin(roll * degree) + b * std::cos(roll * degree) + 0.9;
    s = scene.is_near ? 0.06 * u / v + 0.5 : 0.25 * u / v;
    t = scene.is_near ? 0.06 / v + 0.1 : 0.25 / v;
}

// The error of such views, of 1: beside the mean of 16 by 16 bilinear lookups in level 0 for each pixel.
void planes()
{
    constexpr int SIDE = 256, SAMPLES = 16, ALL = SAMPLES * SAMPLES;
    std::printf("RMS error of a plane to 16 by 16 samples a pixel\n%-24s %8s %10s %10s %12s\n", "scene", "texd", "16 probes",
                "32 probes", "OpenImageIO");
    std::vector<Scene> scenes;
    for (bool is_near : {true, false})
        for (double roll : {0.0, 30.0})
            for (auto it : {std::make_pair("checker", "checker.tif"), std::make_pair("zone plate", "zone.tif"),
                            std::make_pair("noise", "noise.tif")})
                scenes.push_back({it.first, it.second, roll, is_near});
    for (const Scene &scene : scenes) {
        Filter filters[] = {fixed(scene.file), ours(scene.file, 16), ours(scene.file, 32), oiio(scene.file)};
        std::uint32_t file = file_of(scene.file);
        texcache_texture_options options = texcache_default_texture_options(1);
        std::vector<double> s(ALL), t(ALL);
        std::vector<std::uint16_t> values(ALL);
        texcache_coordinates at = {s.data(), t.data(), nullptr, nullptr, nullptr, nullptr, 1};
        double squares[4] = {0, 0, 0, 0};
        for (int y = 0; y < SIDE; y++)
            for (int x = 0; x < SIDE; x++) {
                for (int i = 0; i < ALL; i++)
                    meets(scene, x + (i % SAMPLES + 0.5) / SAMPLES, y + (i / SAMPLES + 0.5) / SAMPLES, s[i], t[i]);
                if (texcache_texture_many(pass, file, &options, &at, ALL, values.data(), ALL, nullptr, nullptr)) stop("texcache");
                double mean = 0, sx, tx, sy, ty;
                for (auto it : values) mean += it / 257.0 / ALL;
                Place p;
                meets(scene, x + 0.5, y + 0.5, p.s, p.t);
                meets(scene, x + 1.5, y + 0.5, sx, tx), meets(scene, x + 0.5, y + 1.5, sy, ty);
                p.dsdx = sx - p.s, p.dtdx = tx - p.t, p.dsdy = sy - p.s, p.dtdy = ty - p.t;
                for (int k = 0; k < 4; k++) {
                    double by = (filters[k](p) - mean) / 255;
                    squares[k] += by * by / (SIDE * SIDE);
                }
            }
        std::string name = std::string(scene.name) + (scene.roll ? ", rolled" : "") + (scene.is_near ? ", near" : ", far");
        std::printf("%-24s %8.4f %10.4f %10.4f %12.4f\n", name.c_str(), std::sqrt(squares[0]), std::sqrt(squares[1]),
                    std::sqrt(squares[2]), std::sqrt(squares[3]));
    }
}

double nanoseconds(const std::function<void()> &call)
{
    auto began = std::chrono::steady_clock::now();
    call();
    return std::chrono::duration<double, std::nano>(std::chrono::steady_clock::now() - began).count();
}

// Warm footprints of three channels along a row: those of texcache by one call and by many, and OpenImageIO's. In turn.
void times()
{
    constexpr int ROW = 64, ROWS = 400;
    std::uint32_t file = file_of("rgb.tif");
    TextureSystem::Perthread *own = oiio_system->get_perthread_info();
    TextureSystem::TextureHandle *handle = oiio_system->get_texture_handle(ustring(folder + "/rgb.tif"), own);
    TextureOpt options;
    options.swrap = options.twrap = TextureOpt::WrapPeriodic;
    options.interpmode = TextureOpt::InterpBilinear;
    options.anisotropic = 16;
    texcache_texture_options ours = texcache_default_texture_options(3);
    // at 0.53 a footprint is within one tile of a level, at 0.5 it is about the corner of four
    struct Case { const char *name; double major, minor, at; };
    for (const Case &it : {Case{"1 probe, round, 2.5 by 2.5", 2.5, 2.5, 0.53}, Case{"7 probes, 20 by 5", 20, 5, 0.53},
                           Case{"15 probes, 16 by 1", 16, 1, 0.53}, Case{"15 probes, 40 by 3", 40, 3, 0.53},
                           Case{"7 probes, 20 by 5, in four tiles", 20, 5, 0.5},
                           Case{"15 probes, 16 by 1, in four tiles", 16, 1, 0.5}}) {
        std::vector<double> numbers[6];
        for (auto &n : numbers) n.resize(ROW);
        for (int i = 0; i < ROW; i++) {
            Place p = shaped(1024, it.major, it.minor, 53.13, 36.87);
            double six[6] = {it.at + i / 4096.0, it.at + i / 8192.0, p.dsdx, p.dtdx, p.dsdy, p.dtdy};
            for (int k = 0; k < 6; k++) numbers[k][i] = six[k];
        }
        texcache_coordinates all = {&numbers[0][0], &numbers[1][0], &numbers[2][0], &numbers[3][0], &numbers[4][0],
                                    &numbers[5][0], 1};
        std::vector<std::uint16_t> values(3 * ROW);
        double sum = 0, least[3] = {1e30, 1e30, 1e30};
        for (int turn = 0; turn < 15; turn++) {
            least[0] = std::min(least[0], nanoseconds([&] {
                for (int r = 0; r < ROWS; r++)
                    if (texcache_texture_many(pass, file, &ours, &all, ROW, &values[0], values.size(), nullptr, nullptr))
                        stop("texcache");
            }));
            least[1] = std::min(least[1], nanoseconds([&] {
                for (int r = 0; r < ROWS; r++)
                    for (int i = 0; i < ROW; i++)
                        if (texcache_texture_footprint(pass, file, &ours, numbers[0][i], numbers[1][i], numbers[2][i],
                                                       numbers[3][i], numbers[4][i], numbers[5][i], &values[0], 3, nullptr))
                            stop("texcache");
            }));
            least[2] = std::min(least[2], nanoseconds([&] {
                float rgb[3];
                for (int r = 0; r < ROWS; r++)
                    for (int i = 0; i < ROW; i++) {
                        if (!oiio_system->texture(handle, own, options, float(numbers[0][i]), float(numbers[1][i]),
                                                  float(numbers[2][i]), float(numbers[3][i]), float(numbers[4][i]),
                                                  float(numbers[5][i]), 3, rgb))
                            stop(oiio_system->geterror());
                        sum += rgb[0];
                    }
            }));
        }
        const double all_calls = double(ROW) * ROWS;
        std::printf("%s: %.0f ns in a batch of 64, %.0f ns alone, OpenImageIO %.0f ns: %.2f and %.2f times as fast (%g)\n",
                    it.name, least[0] / all_calls, least[1] / all_calls, least[2] / all_calls, least[2] / least[0],
                    least[2] / least[1], std::fmod(sum, 7));
    }
}

// ---- pictures

void write(const char *name, int width, int height, const std::vector<double> &values)
{
    std::string path = folder + "/" + name;
    FILE *to = std::fopen(path.c_str(), "wb");
    if (!to) stop(path);
    std::fprintf(to, "P5\n%d %d\n255\n", width, height);
    for (double it : values) std::fputc(int(std::min(255.0, std::max(0.0, it)) + 0.5), to);
    std::fclose(to);
}

// A close view of 8192 texels, and a rolled checkerboard plane: each by texcache in 1/65536, on doubles, and OpenImageIO.
void pictures()
{
    const char *names[] = {"before", "after", "oiio"};
    const int W = 200, H = 140;
    Filter close[] = {fixed("wide.tif"), ours("wide.tif", 16), oiio("wide.tif")};
    Filter plane[] = {fixed("checker.tif"), ours("checker.tif", 16), oiio("checker.tif")};
    for (int n = 0; n < 3; n++) {
        std::vector<double> one, two;
        for (int y = 0; y < H; y++)
            for (int x = 0; x < W; x++) {
                one.push_back(close[n]({0.40731 + x / 36.0 / 8192, 0.5 + y / 36.0 / 512, 1 / 36.0 / 8192, 0, 0, 1 / 36.0 / 512}));
                auto meets = [&](double px, double py, double &s, double &t) {
                    double roll = 30 * degree, a = (px - W / 2.0) / W, b = (py - H / 2.0) / W;
                    double u = a * std::cos(roll) - b * std::sin(roll), v = a * std::sin(roll) + b * std::cos(roll);
                    double far = 1 / std::max(0.012, v + 0.42);
                    s = u * far * 0.5, t = far * 0.5;
                };
                Place p;
                double sx, tx, sy, ty;
                meets(x, y, p.s, p.t), meets(x + 1, y, sx, tx), meets(x, y + 1, sy, ty);
                p.dsdx = sx - p.s, p.dtdx = tx - p.t, p.dsdy = sy - p.s, p.dtdy = ty - p.t;
                two.push_back(plane[n](p));
            }
        write((std::string("close_") + names[n] + ".pgm").c_str(), W, H, one);
        write((std::string("plane_") + names[n] + ".pgm").c_str(), W, H, two);
    }
}

}  // namespace

int main(int count, char **words)
{
    if (count != 3) return 2;
    folder = words[1];
    oiio_system = TextureSystem::create(false);
    oiio_system->attribute("max_memory_MB", 512.0f);
    if (int error = texcache_open(&cache, words[1], nullptr)) stop(texcache_error_string(error));
    if (int error = texcache_new_pass(cache, &pass)) stop(texcache_error_string(error));
    const std::string mode = words[2];
    if (mode == "magnified") magnified();
    else if (mode == "ramp") ramp();
    else if (mode == "contrasts") contrasts();
    else if (mode == "jumps") jumps();
    else if (mode == "times") times();
    else if (mode == "planes") planes();
    else if (mode == "pictures") pictures();
    else if (mode == "check") is_check = true, magnified(), ramp(), contrasts(), jumps();
    else return 2;
    texcache_end(&pass);
    return texcache_close(&cache) || failures;
}
