// Draws views of textures through OpenImageIO's TextureSystem, or through texcache with the same lines:
//
//     c++ -std=c++17 -O2 -DUSE_OIIO -o picture picture.cpp -lOpenImageIO -lOpenImageIO_Util
//     c++ -std=c++17 -O2 -o picture picture.cpp $(pkg-config --cflags --libs texcache)
//     picture FOLDER OUT
//
// FOLDER has rgb.tif (square), wide.tif (twice as wide as high), grey.tif and deep.tif (16 bits). Each view becomes a PPM
// file of 16 bits in the folder OUT, and what the system says of the files goes to OUT/facts.txt. tools/check bridge
// compares the two.
#ifdef USE_OIIO
#    include <OpenImageIO/texture.h>
#else
#    include <texcache_oiio.hpp>
namespace OIIO = texcache_oiio;
#endif

#include <cmath>
#include <cstdint>
#include <cstdio>
#include <cstring>
#include <fstream>
#include <functional>
#include <iostream>
#include <string>
#include <thread>
#include <vector>

using OIIO::TextureOpt;
using OIIO::TextureSystem;
using OIIO::TypeDesc;
using OIIO::ustring;

namespace {

constexpr int width = 320, height = 200;

// A pixel's lookup: its place in the image, and how far the next pixels are.
struct Place {
    float s, t, dsdx, dtdx, dsdy, dtdy;
};

// What a view shows, and how.
struct View {
    const char *name;
    const char *file;
    std::function<Place(int x, int y)> place;
    std::function<void(TextureOpt &)> set;
    int channels = 3;
};

// The image and its surroundings, from -1 to 2, without derivatives.
Place around(int x, int y) { return {3 * (x + 0.4f) / width - 1, 3 * (y + 0.4f) / height - 1, 0, 0, 0, 0}; }

// A small part, much enlarged, without derivatives.
Place close(int x, int y) { return {0.3f + 0.05f * x / width, 0.6f + 0.04f * y / height, 0, 0, 0, 0}; }

// Round footprints, from a quarter of a texel of 512 at the left to 60 texels at the right.
Place zoom(int x, int y)
{
    float step = std::exp2(-2 + 8.0f * x / width) / 512;
    return {(x * 7 % 320) / 320.0f + 0.001f, (y + 0.3f) / height, step, 0, 0, step};
}

// Round footprints whose pixel grid is turned by 30 degrees.
Place turned(int x, int y)
{
    Place p = zoom(x, y);
    float step = p.dsdx, c = std::cos(0.5236f), n = std::sin(0.5236f);
    return {p.s, p.t, step * c, step * n, -step * n, step * c};
}

// A floor in perspective: long footprints.
Place floor_of(int x, int y)
{
    float down = (y + 4.5f) / height, far = 0.5f / down, next = 0.5f / ((y + 5.5f) / height);
    return {(x - width / 2) * far / width * 2, far, far / width * 2, 0, (x - width / 2) * (next - far) / width * 2, next - far};
}

void points(TextureOpt &o) { o.interpmode = TextureOpt::InterpBilinear; }
void no_mip(TextureOpt &o) { o.mipmode = TextureOpt::MipModeNoMIP, points(o); }
void nearest(TextureOpt &o) { o.mipmode = TextureOpt::MipModeNoMIP, o.interpmode = TextureOpt::InterpClosest; }
void wraps(TextureOpt &o, TextureOpt::Wrap s, TextureOpt::Wrap t) { o.swrap = s, o.twrap = t; }

const float pink[] = {1.0f, 0.25f, 0.5f, 0.75f};

const std::vector<View> views = {
    {"default", "rgb.tif", around, [](TextureOpt &o) { no_mip(o); }},
    {"black", "rgb.tif", around, [](TextureOpt &o) { no_mip(o), wraps(o, TextureOpt::WrapBlack, TextureOpt::WrapBlack); }},
    {"clamp", "rgb.tif", around, [](TextureOpt &o) { no_mip(o), wraps(o, TextureOpt::WrapClamp, TextureOpt::WrapMirror); }},
    {"periodic", "wide.tif", around, [](TextureOpt &o) { no_mip(o), wraps(o, TextureOpt::WrapPeriodic, TextureOpt::WrapClamp); }},
    {"pow2", "rgb.tif", around, [](TextureOpt &o) { no_mip(o), wraps(o, TextureOpt::WrapPeriodicPow2, TextureOpt::WrapPeriodic); }},
    {"mirror", "wide.tif", around, [](TextureOpt &o) { no_mip(o), wraps(o, TextureOpt::WrapMirror, TextureOpt::WrapBlack); }},
    {"closest", "rgb.tif", around, [](TextureOpt &o) { nearest(o), wraps(o, TextureOpt::WrapMirror, TextureOpt::WrapPeriodic); }},
    {"closest_black", "wide.tif", around, nearest},
    {"close", "rgb.tif", close, no_mip},
    {"close_deep", "deep.tif", close, no_mip},
    {"close_aniso", "rgb.tif", close, points},
    {"close_smart", "rgb.tif", close, [](TextureOpt &) {}},
    {"one_level", "rgb.tif", zoom, [](TextureOpt &o) { points(o), o.mipmode = TextureOpt::MipModeOneLevel; }},
    {"one_closest", "rgb.tif", zoom, [](TextureOpt &o) { nearest(o), o.mipmode = TextureOpt::MipModeOneLevel; }},
    {"trilinear", "rgb.tif", zoom, [](TextureOpt &o) { points(o), o.mipmode = TextureOpt::MipModeTrilinear; }},
    {"trilinear_wide", "wide.tif", zoom, [](TextureOpt &o) { points(o), o.mipmode = TextureOpt::MipModeTrilinear; }},
    {"trilinear_turned", "rgb.tif", turned, [](TextureOpt &o) { points(o), o.mipmode = TextureOpt::MipModeTrilinear; }},
    {"trilinear_sharp", "rgb.tif", floor_of,
     [](TextureOpt &o) { points(o), o.mipmode = TextureOpt::MipModeTrilinear, o.conservative_filter = false; }},
    {"trilinear_closest", "rgb.tif", zoom, [](TextureOpt &o) { nearest(o), o.mipmode = TextureOpt::MipModeTrilinear; }},
    {"trilinear_width", "rgb.tif", zoom,
     [](TextureOpt &o) { points(o), o.mipmode = TextureOpt::MipModeTrilinear, o.swidth = 2, o.twidth = 0.5f; }},
    {"trilinear_blur", "rgb.tif", zoom,
     [](TextureOpt &o) { points(o), o.mipmode = TextureOpt::MipModeTrilinear, o.sblur = 0.01f, o.tblur = 0.02f; }},
    {"stochastic", "rgb.tif", zoom, [](TextureOpt &o) { points(o), o.mipmode = TextureOpt::MipModeStochasticTrilinear; }},
    {"round", "rgb.tif", zoom, points},
    {"round_turned", "rgb.tif", turned, points},
    {"round_width", "rgb.tif", zoom, [](TextureOpt &o) { points(o), o.swidth = o.twidth = 3; }},
    {"round_blur", "rgb.tif", zoom, [](TextureOpt &o) { points(o), o.sblur = o.tblur = 0.02f; }},
    {"blur", "rgb.tif", close, [](TextureOpt &o) { points(o), o.sblur = o.tblur = 0.02f; }},
    {"round_closest", "rgb.tif", zoom, [](TextureOpt &o) { o.interpmode = TextureOpt::InterpClosest; }},
    {"floor", "rgb.tif", floor_of, [](TextureOpt &o) { points(o), wraps(o, TextureOpt::WrapPeriodic, TextureOpt::WrapPeriodic); }},
    {"floor_blur", "rgb.tif", floor_of,
     [](TextureOpt &o) { points(o), wraps(o, TextureOpt::WrapPeriodic, TextureOpt::WrapPeriodic), o.sblur = 0.01f, o.tblur = 0.03f; }},
    {"floor_one", "rgb.tif", floor_of,
     [](TextureOpt &o) { points(o), wraps(o, TextureOpt::WrapPeriodic, TextureOpt::WrapPeriodic), o.anisotropic = 1; }},
    {"fill", "grey.tif", close, [](TextureOpt &o) { no_mip(o), o.fill = 0.3f; }},
    {"first", "rgb.tif", close, [](TextureOpt &o) { no_mip(o), o.firstchannel = 1, o.fill = 0.8f; }},
    {"missing", "nothing.tif", close, [](TextureOpt &o) { o.missingcolor = pink; }},
};

// One value as PPM has it: two bytes, the higher one first.
void put(std::string &out, float value)
{
    int whole = int(std::lround(65535.0f * std::min(std::max(value, 0.0f), 1.0f)));
    out += char(whole >> 8);
    out += char(whole & 255);
}

void write(const std::string &path, const std::string &samples)
{
    std::ofstream(path, std::ios::binary) << "P6\n" << width << ' ' << height << "\n65535\n" << samples;
}

// A view by single lookups.
std::string drawn(TextureSystem *system, const std::string &folder, const View &view)
{
    TextureSystem::Perthread *own = system->get_perthread_info();
    TextureSystem::TextureHandle *file = system->get_texture_handle(ustring(folder + "/" + view.file), own);
    std::string samples;
    for (int y = 0; y < height; y++)
        for (int x = 0; x < width; x++) {
            Place p = view.place(x, y);
            TextureOpt options;
            view.set(options);
            float rgb[3] = {0, 0, 0};
            if (!system->texture(file, own, options, p.s, p.t, p.dsdx, p.dtdx, p.dsdy, p.dtdy, view.channels, rgb)) {
                std::cerr << view.name << ": " << system->geterror() << '\n';
                std::exit(1);
            }
            for (float it : rgb) put(samples, it);
        }
    return samples;
}

// A view by batches of 16 lookups.
std::string in_batches(TextureSystem *system, const std::string &folder, const View &view)
{
    constexpr int W = OIIO::Tex::BatchWidth;
    std::string samples;
    for (int y = 0; y < height; y++)
        for (int x = 0; x < width; x += W) {
            TextureOpt one;
            view.set(one);
            OIIO::TextureOptBatch options;
            alignas(OIIO::Tex::BatchAlign) float at[6][W], result[3 * W] = {0};
            for (int i = 0; i < W; i++) {
                Place p = view.place(x + i, y);
                at[0][i] = p.s, at[1][i] = p.t, at[2][i] = p.dsdx, at[3][i] = p.dtdx, at[4][i] = p.dsdy, at[5][i] = p.dtdy;
                options.sblur[i] = one.sblur, options.tblur[i] = one.tblur, options.rblur[i] = 0;
                options.swidth[i] = one.swidth, options.twidth[i] = one.twidth, options.rwidth[i] = 1;
            }
            options.swrap = OIIO::Tex::Wrap(one.swrap), options.twrap = OIIO::Tex::Wrap(one.twrap);
            options.mipmode = OIIO::Tex::MipMode(one.mipmode), options.interpmode = OIIO::Tex::InterpMode(one.interpmode);
            options.anisotropic = one.anisotropic, options.conservative_filter = one.conservative_filter;
            options.firstchannel = one.firstchannel, options.fill = one.fill, options.missingcolor = one.missingcolor;
            // every third pixel of each batch is left out
            OIIO::Tex::RunMask mask = OIIO::Tex::RunMaskOn & 0x6db6db6db6db6db6ull;
            if (!system->texture(ustring(folder + "/" + view.file), options, mask, at[0], at[1], at[2], at[3], at[4], at[5],
                                 view.channels, result)) {
                std::cerr << view.name << ", in batches: " << system->geterror() << '\n';
                std::exit(1);
            }
            for (int i = 0; i < W; i++)
                for (int c = 0; c < 3; c++) put(samples, mask >> i & 1 ? result[c * W + i] : 0.5f);
        }
    return samples;
}

// What the system says of a file.
void say_facts(std::ostream &out, TextureSystem *system, const std::string &folder, const char *name)
{
    ustring file(folder + "/" + name);
    out << name;
    for (const char *it : {"exists", "subimages", "miplevels", "channels", "format", "cachedformat"}) {
        int value = -1;
        bool is_there = system->get_texture_info(file, 0, ustring(it), OIIO::TypeInt, &value);
        out << ' ' << it << ' ' << is_there << ' ' << value;
    }
    struct {
        const char *name;
        int length;
    } const windows[] = {{"resolution", 2}, {"resolution", 3}, {"datawindow", 4}, {"datawindow", 6}, {"displaywindow", 4}};
    for (const auto &it : windows) {
        int values[6] = {-1, -1, -1, -1, -1, -1};
        bool is_there = system->get_texture_info(file, 0, ustring(it.name), TypeDesc(TypeDesc::INT, it.length), values);
        out << ' ' << it.name << ' ' << is_there;
        for (int i = 0; i < it.length; i++) out << ' ' << values[i];
    }
    for (const char *it : {"texturetype", "textureformat", "fileformat"}) {
        const char *text = "-";
        bool is_there = system->get_texture_info(file, 0, ustring(it), OIIO::TypeString, &text);
        out << ' ' << it << ' ' << is_there << ' ' << text;
    }
    OIIO::ImageSpec spec;
    bool is_there = system->get_imagespec(file, 0, spec);
    out << " spec " << is_there;
    if (is_there) out << ' ' << spec.width << ' ' << spec.height << ' ' << spec.nchannels << ' ' << spec.format.c_str();
    out << " errors " << system->has_error() << ' ' << !system->geterror().empty() << ' ' << system->has_error() << '\n';
}

// Attributes, names, texels and errors.
void say_rest(std::ostream &out, TextureSystem *system, const std::string &folder)
{
    float memory = 0;
    int files = 0, grey = -1, flip = -1, automip = -1;
    std::string path;
    out << system->getattribute("max_memory_MB", memory) << ' ' << memory << ' ' << system->getattribute("max_open_files", files)
        << ' ' << files << ' ' << system->getattribute("gray_to_rgb", grey) << ' ' << grey << ' '
        << system->getattribute("flip_t", flip) << ' ' << flip << ' ' << system->getattribute("automip", automip) << ' '
        << automip << '\n';
    out << "unknown attribute " << system->attribute("nonsense", 1) << '\n';
    system->geterror();
    out << (system->resolve_filename("rgb.tif") == "rgb.tif") << ' ';
    system->attribute("searchpath", "/nowhere:" + folder);
    out << (system->resolve_filename("rgb.tif") == folder + "/rgb.tif") << ' ' << system->resolve_filename("nothing.tif") << ' '
        << system->resolve_filename("/nothing.tif") << '\n';
    TextureSystem::TextureHandle *file = system->get_texture_handle(ustring("rgb.tif")),
                                 *none = system->get_texture_handle(ustring("nothing.tif"));
    out << "good " << system->good(file) << '\n';
    TextureOpt options;
    std::vector<std::uint8_t> bytes(5 * 4 * 3);
    bool is_there = system->get_texels(file, nullptr, options, 1, 7, 12, 9, 13, 0, 1, 0, 3, TypeDesc::UINT8, bytes.data());
    out << "texels " << is_there;
    for (int it : bytes) out << ' ' << it;
    float values[4] = {9, 9, 9, 9};
    options.fill = 0.25f;
    is_there = system->texture(none, nullptr, options, 0.5f, 0.5f, 0, 0, 0, 0, 4, values);
    out << "\nmissing " << is_there << ' ' << values[0] << ' ' << values[3] << ' ' << system->has_error() << '\n';
    system->geterror();
    system->invalidate(ustring("rgb.tif"));
    system->invalidate_all();
    out << "again " << system->texture(file, nullptr, options, 0.5f, 0.5f, 0, 0, 0, 0, 4, values) << ' ' << values[3] << '\n';
    out << "threads";
    std::vector<std::thread> threads;
    std::vector<int> good(20);
    for (int n = 0; n < 20; n++)
        threads.emplace_back([&, n] {
            TextureOpt own;
            float rgb[3];
            for (int i = 0; i < 200; i++)
                good[n] += system->texture(ustring("rgb.tif"), own, 0.005f * i, 0.05f * n, 0, 0, 0, 0, 3, rgb);
        });
    for (std::thread &it : threads) it.join();
    for (int it : good) out << ' ' << it;
    out << '\n';
}

// The tiles of a UDIM name: which there are, and values in them and around.
void say_tiles(std::ostream &out, TextureSystem *system, const std::string &folder, const char *name)
{
    const ustring pattern(folder + "/" + name);
    std::vector<ustring> names;
    int across = -1, down = -1;
    out << name << " is_udim " << system->is_udim(pattern);
    if (!system->is_udim(pattern)) {
        out << '\n';
        return;
    }
    system->inventory_udim(pattern, names, across, down);
    out << " good " << system->good(system->get_texture_handle(pattern)) << ' ' << across << " by " << down;
    for (const ustring &it : names) out << ' ' << it.string().substr(it.string().rfind('/') + 1);
    TextureOpt options;
    options.swrap = options.twrap = TextureOpt::WrapClamp;
    options.interpmode = TextureOpt::InterpClosest;
    options.mipmode = TextureOpt::MipModeNoMIP;
    options.fill = 0.25f;
    for (float s : {-3.3f, -0.3f, 0.3f, 1.3f, 2.3f, 10.3f})
        for (float t : {-1.6f, 0.4f, 1.4f, 2.4f}) {
            float values[3] = {9, 9, 9};
            bool is_there = system->texture(pattern, options, s, t, 0, 0, 0, 0, 3, values);
            out << ' ' << is_there << (system->resolve_udim(pattern, s, t) ? " tile" : " none");
            for (float it : values) out << ' ' << int(255 * it + 0.5f);
        }
    system->geterror();
    out << '\n';
}

}  // namespace

int main(int count, char **words)
{
    if (count != 3) {
        std::cerr << "usage: picture FOLDER OUT\n";
        return 2;
    }
    std::string folder = words[1], to = words[2];
    TextureSystem *system = TextureSystem::create(false);
    system->attribute("max_memory_MB", 64.0f);
    system->attribute("max_open_files", 50);
    for (const View &it : views) {
        write(to + "/" + it.name + ".ppm", drawn(system, folder, it));
        write(to + "/" + it.name + "_batch.ppm", in_batches(system, folder, it));
    }
    for (int is_flipped : {0, 1}) {
        system->attribute("gray_to_rgb", 1 - is_flipped);
        system->attribute("flip_t", is_flipped);
        View view = {"", is_flipped ? "rgb.tif" : "grey.tif", around, no_mip};
        write(to + (is_flipped ? "/flipped.ppm" : "/grey.ppm"), drawn(system, folder, view));
    }
    std::ofstream facts(to + "/facts.txt");
    for (const char *it : {"rgb.tif", "wide.tif", "grey.tif", "deep.tif", "nothing.tif"}) say_facts(facts, system, folder, it);
    say_rest(facts, system, folder);
    for (const char *it : {"t.<UDIM>.tif", "t.%(UDIM)d.tif", "t_<u>_<v>.tif", "t_<U>_<V>.tif", "t_<uvtile>.tif", "t_<UVTILE>.tif",
                           "t_u##v##.tif", "t_<udim>.tif", "none.<UDIM>.tif", "rgb.tif"})
        say_tiles(facts, system, folder, it);
    TextureSystem::destroy(system);
    return 0;
}
