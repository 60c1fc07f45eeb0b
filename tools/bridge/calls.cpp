// calls.cpp: tests of texcache_oiio.hpp: calls FOLDER OTHER. FOLDER has ramp.tif (128 by 64, one channel of 16 bits, the
// value 256 x + y in level 0 and 1000 m in level m), rgb.tif (any) and bad.tif (no image); OTHER has more.tif (like
// ramp.tif) and may be written to. Expected values come from the formula.
#include <texcache_oiio.hpp>

#include <cstdio>
#include <fstream>
#include <iostream>
#include <iterator>
#include <thread>

namespace OIIO = texcache_oiio;
using OIIO::TextureOpt;
using OIIO::TextureSystem;
using OIIO::TypeDesc;
using OIIO::ustring;

namespace {

int passed, failed;
std::string folder, other;

void check(bool is_so, const std::string &what)
{
    (is_so ? passed : failed)++;
    if (!is_so) std::cout << "not so: " << what << '\n';
}

bool is_near(float a, double b, double most = 1e-5) { return std::fabs(a - b) <= most; }

bool has(const std::string &text, const char *part) { return text.find(part) != std::string::npos; }

// Whether the latest call left this error, which is then gone.
bool said(TextureSystem *system, const char *part)
{
    bool is_so = system->has_error() && has(system->geterror(false), part) && has(system->geterror(), part);
    return is_so && !system->has_error() && system->geterror().empty();
}

double at(int x, int y) { return (256.0 * x + y) / 65535; }

TextureOpt plain(TextureOpt::InterpMode by = TextureOpt::InterpClosest)
{
    TextureOpt o;
    o.interpmode = by, o.mipmode = TextureOpt::MipModeNoMIP;
    o.swrap = o.twrap = TextureOpt::WrapClamp;
    return o;
}

void copy(const std::string &from, const std::string &to)
{
    {
        std::ifstream in(from, std::ios::binary);
        std::ofstream out(to + ".new", std::ios::binary);
        out << in.rdbuf();
    }
    std::rename((to + ".new").c_str(), to.c_str());
}

ustring ramp() { return ustring(folder + "/ramp.tif"); }

void of_values(TextureSystem *system)
{
    TextureOpt o = plain();
    bool is_so = true;
    for (int y : {0, 1, 31, 62, 63})
        for (int x : {0, 5, 127}) {
            float value = -1;
            is_so &= system->texture(ramp(), o, (float(x) + 0.5f) / 128, (float(y) + 0.5f) / 64, 0, 0, 0, 0, 1, &value);
            is_so &= is_near(value, at(x, y));
        }
    check(is_so, "t runs down from the first row");
    float value[4] = {-1, -1, -1, -1}, ds[4], dt[4];
    o = plain(TextureOpt::InterpBilinear);
    system->texture(ramp(), o, 10.75f / 128, 20.25f / 64, 0, 0, 0, 0, 1, value, ds, dt);
    check(is_near(value[0], (256 * 10.25 + 19.75) / 65535), "a bilinear value");
    check(is_near(ds[0], 256.0 * 128 / 65535, 0.01) && is_near(dt[0], 64.0 / 65535, 0.01), "derivatives of results");
    system->attribute("flip_t", 1);
    system->texture(ramp(), o, 10.75f / 128, 20.25f / 64, 0, 0, 0, 0, 1, value, ds, dt);
    check(is_near(value[0], (256 * 10.25 + 43.25) / 65535) && is_near(dt[0], -64.0 / 65535, 0.01), "flip_t");
    system->attribute("flip_t", 0);
    o = plain();
    for (int level = 1; level < 7; level++) {
        TextureOpt one = plain();
        one.mipmode = TextureOpt::MipModeOneLevel;
        float step = 0.75f * float(1 << level) / 64;
        system->texture(ramp(), one, 0.3f, 0.3f, step, 0, 0, step, 1, value);
        check(is_near(value[0], 1000.0 * level / 65535), "the level of a footprint, " + std::to_string(level));
    }
    o.fill = 0.5f;
    system->texture(ramp(), o, 0.5f, 0.5f, 0, 0, 0, 0, 4, value, ds, dt);
    check(value[1] == 0.5f && value[3] == 0.5f && ds[3] == 0, "fill");
    system->attribute("gray_to_rgb", 1);
    system->texture(ramp(), o, 0.5f, 0.5f, 0, 0, 0, 0, 4, value);
    check(value[1] == value[0] && value[2] == value[0] && value[3] == 0.5f, "gray_to_rgb");
    system->attribute("gray_to_rgb", 0);
    o.firstchannel = 1;
    check(system->texture(ramp(), o, 0.5f, 0.5f, 0, 0, 0, 0, 2, value) && value[0] == 0.5f && value[1] == 0.5f, "no such channel");
    o.firstchannel = 2000000000;
    check(system->texture(ramp(), o, 0.5f, 0.5f, 0, 0, 0, 0, 2, value) && value[0] == 0.5f, "a channel far behind");
    float many[100];
    o.firstchannel = 0;
    check(system->texture(ramp(), o, 0.5f, 0.5f, 0, 0, 0, 0, 100, many) && many[99] == 0.5f && is_near(many[0], at(64, 32)),
          "a hundred channels");
}

void of_places(TextureSystem *system)
{
    TextureOpt o = plain();
    float near = -1, far = -2;
    const float inf = std::numeric_limits<float>::infinity(), nan = std::numeric_limits<float>::quiet_NaN();
    for (TextureOpt::Wrap wrap : {TextureOpt::WrapPeriodic, TextureOpt::WrapMirror}) {
        o.swrap = o.twrap = wrap;
        system->texture(ramp(), o, 0.25f, 0.7578125f, 0, 0, 0, 0, 1, &near);
        system->texture(ramp(), o, 65536.25f, wrap == TextureOpt::WrapMirror ? -65536.7578125f : -65537.2421875f, 0, 0, 0, 0, 1, &far);
        check(near == far, "far places repeat");
    }
    o = plain();
    check(system->texture(ramp(), o, 1e30f, -1e30f, 0, 0, 0, 0, 1, &far) && is_near(far, at(127, 0)), "the edge is clamped");
    o.swrap = TextureOpt::WrapBlack;
    check(system->texture(ramp(), o, -1e30f, 0.5f, 0, 0, 0, 0, 1, &far) && far == 0, "black far outside");
    o.fill = 0.25f;
    for (float bad : {nan, inf, -inf}) {
        far = 0;
        check(!system->texture(ramp(), o, bad, 0.5f, 0, 0, 0, 0, 1, &far) && far == 0.25f && said(system, "finite"), "s is no number");
        check(!system->texture(ramp(), o, 0.5f, bad, 0, 0, 0, 0, 1, &far) && said(system, "finite"), "t is no number");
    }
    for (TextureOpt::MipMode mode : {TextureOpt::MipModeDefault, TextureOpt::MipModeTrilinear, TextureOpt::MipModeOneLevel})
        for (float bad : {nan, inf, -inf, 1e30f, -1e38f}) {
            TextureOpt any;
            any.mipmode = mode, any.swrap = any.twrap = TextureOpt::WrapPeriodic;
            check(system->texture(ramp(), any, 0.5f, 0.5f, bad, 0, 0, bad, 1, &far) && far >= 0 && far <= 1, "a horizon");
            any.sblur = 1e30f;
            check(system->texture(ramp(), any, 0.5f, 0.5f, 0, bad, bad, 0, 1, &far) && far >= 0 && far <= 1, "a blurred horizon");
        }
}

// A lookup with options that are refused.
void refuses(TextureSystem *system, const char *part, const std::function<void(TextureOpt &)> &set)
{
    TextureOpt o;
    float value[3] = {9, 9, 9};
    const float pink[] = {1, 0, 1};
    o.fill = 0.125f, o.missingcolor = pink;
    set(o);
    bool is_so = !system->texture(ramp(), o, 0.5f, 0.5f, 0, 0, 0, 0, 3, value) && value[0] == 0.125f && said(system, part);
    check(is_so, std::string("refused: ") + part);
    OIIO::TextureOptBatch batch;
    batch.interpmode = OIIO::Tex::InterpMode(o.interpmode), batch.mipmode = OIIO::Tex::MipMode(o.mipmode);
    batch.swrap = OIIO::Tex::Wrap(o.swrap), batch.twrap = OIIO::Tex::Wrap(o.twrap);
    batch.subimage = o.subimage, batch.subimagename = o.subimagename, batch.firstchannel = o.firstchannel;
    float in[OIIO::Tex::BatchWidth] = {0}, results[3 * OIIO::Tex::BatchWidth];
    is_so = !system->texture(ramp(), batch, OIIO::Tex::RunMaskOn, in, in, in, in, in, in, 3, results) && said(system, part);
    check(is_so, std::string("refused in a batch: ") + part);
}

void of_options(TextureSystem *system)
{
    refuses(system, "no cubic filter", [](TextureOpt &o) { o.interpmode = TextureOpt::InterpBicubic; });
    refuses(system, "interpmode", [](TextureOpt &o) { o.interpmode = TextureOpt::InterpMode(7); });
    refuses(system, "mipmode", [](TextureOpt &o) { o.mipmode = TextureOpt::MipMode(-1); });
    refuses(system, "PeriodicSharedBorder", [](TextureOpt &o) { o.swrap = TextureOpt::WrapPeriodicSharedBorder; });
    refuses(system, "wrap", [](TextureOpt &o) { o.twrap = TextureOpt::WrapLast; });
    refuses(system, "one subimage", [](TextureOpt &o) { o.subimage = 1; });
    refuses(system, "one subimage", [](TextureOpt &o) { o.subimagename = ustring("left"); });
    refuses(system, "firstchannel", [](TextureOpt &o) { o.firstchannel = -1; });
    TextureOpt o;
    float value = 0;
    check(!system->texture(nullptr, nullptr, o, 0, 0, 0, 0, 0, 0, 1, &value) && said(system, "NULL"), "no handle");
    check(!system->texture(ramp(), o, 0, 0, 0, 0, 0, 0, 0, &value) && said(system, "nchannels"), "no channels");
    check(!system->texture(ramp(), o, 0, 0, 0, 0, 0, 0, -5, &value) && said(system, "nchannels"), "fewer than no channels");
    check(!system->texture(ramp(), o, 0, 0, 0, 0, 0, 0, 1, nullptr) && said(system, "NULL"), "no room");
    TextureOpt::Wrap s, t;
    TextureOpt::parse_wrapmodes("mirror,clamp", s, t);
    check(s == TextureOpt::WrapMirror && t == TextureOpt::WrapClamp, "parse_wrapmodes");
    TextureOpt::parse_wrapmodes("periodic", s, t);
    check(s == TextureOpt::WrapPeriodic && t == s && TextureOpt::decode_wrapmode("nonsense") == TextureOpt::WrapDefault, "wrap names");
}

void of_files(TextureSystem *system)
{
    TextureOpt o = plain();
    float value[4] = {9, 9, 9, 9};
    const float pink[] = {1, 0.25f, 0.5f, 0.75f};
    for (const std::string &name : {folder + "/nosuch.tif", folder + "/bad.tif", std::string("/nosuch/folder/x.tif"), std::string("nosuch.tif")}) {
        TextureSystem::TextureHandle *file = system->get_texture_handle(ustring(name));
        check(file && !system->good(file) && system->filename_from_handle(file) == name, "a handle of " + name);
        o.fill = 0.5f, o.missingcolor = nullptr;
        check(!system->texture(file, nullptr, o, 0, 0, 0, 0, 0, 0, 4, value) && value[0] == 0.5f && value[3] == 0.5f, "lookup of " + name);
        std::string text = system->geterror();
        check(has(text, name.c_str()) && text.size() > name.size() + 5, "the error of " + name + ": " + text);
        o.missingcolor = pink;
        check(system->texture(file, nullptr, o, 0, 0, 0, 0, 0, 0, 4, value) && value[1] == 0.25f && value[3] == 0.75f && !system->has_error(),
              "missingcolor");
        int exists = 5, levels = 5;
        check(system->get_texture_info(file, nullptr, 0, ustring("exists"), OIIO::TypeInt, &exists) && exists == 0, "exists");
        check(!system->get_texture_info(file, nullptr, 0, ustring("miplevels"), OIIO::TypeInt, &levels) && levels == 5
                  && said(system, name.c_str()), "miplevels of a missing file");
        check(!system->imagespec(file) && said(system, name.c_str()), "imagespec of a missing file");
        std::uint8_t byte;
        check(!system->get_texels(file, nullptr, o, 0, 0, 1, 0, 1, 0, 1, 0, 1, OIIO::TypeUInt8, &byte) && said(system, name.c_str()), "texels");
    }
    check(has(system->resolve_filename("ramp.tif"), "ramp.tif") && system->resolve_filename("ramp.tif") == "ramp.tif", "no search path");
    system->attribute("searchpath", "/nosuch:" + other + ";" + folder);
    check(system->resolve_filename("ramp.tif") == folder + "/ramp.tif" && system->resolve_filename("more.tif") == other + "/more.tif"
              && system->resolve_filename("nosuch.tif") == "nosuch.tif" && system->resolve_filename("/a/b.tif") == "/a/b.tif", "searchpath");
    check(system->get_texture_handle(ustring("ramp.tif")) == system->get_texture_handle(ramp()), "one handle for one file");
    o = plain();
    check(system->texture(ustring("more.tif"), o, 0.5f / 128, 10.5f / 64, 0, 0, 0, 0, 1, value) && is_near(value[0], at(0, 10)), "a second folder");
    // files of both folders share the cache: its memory and its counts
    int files = 0;
    std::int64_t opened = 0;
    check(system->getattribute("total_files", files) && files > 5 && system->getattribute("stat:open_files_created", OIIO::TypeInt64, &opened)
              && opened >= 2 && has(system->getstats(2), (folder + "/ramp.tif").c_str()) && has(system->getstats(2), (other + "/more.tif").c_str()),
          "one cache for both folders: " + system->getstats(2));
}

// The working directory comes first, then the search path, which may change at any time; paths may have several parts.
void of_search(TextureSystem *system)
{
    TextureOpt o = plain();
    float value = -1;
    char *before = getcwd(nullptr, 0);
    const std::string one = other + "/one", two = other + "/two";
    for (const std::string &it : {one, two, one + "/sub"}) mkdir(it.c_str(), 0700);
    std::string kept;
    system->getattribute("searchpath", kept);
    copy(folder + "/ramp.tif", one + "/sub/where.tif"), copy(folder + "/ramp.tif", two + "/there.tif");
    const auto looks = [&](const char *name) {
        return system->texture(ustring(name), o, 3.5f / 128, 10.5f / 64, 0, 0, 0, 0, 1, &value) && is_near(value, at(3, 10));
    };
    system->attribute("searchpath", one);
    check(looks("sub/where.tif") && looks("./sub/../sub/where.tif"), "a path of two parts on the search path");
    check(!looks("there.tif") && said(system, "there.tif"), "a file that is not on the search path");
    system->attribute("searchpath", two + "/:" + one);
    check(looks("there.tif") && looks("sub/where.tif"), "another search path: " + system->geterror());
    check(!chdir(one.c_str()) && system->resolve_filename("sub/where.tif") == "sub/where.tif", "the working directory comes first");
    system->attribute("searchpath", two);
    check(looks("sub/where.tif") && looks("there.tif"), "relative to another working directory: " + system->geterror());
    check(looks((two + "/../one/sub/where.tif").c_str()), "an absolute path with ..");
    if (chdir(before)) std::abort();
    std::free(before);
    system->attribute("searchpath", kept);
}

void of_tiles(TextureSystem *system)
{
    TextureOpt o = plain();
    float value[4];
    const float pink[] = {1, 0.25f, 0.5f, 0.75f};
    int across = 1, down = 1, number = 5;
    std::vector<ustring> names(3);
    check(!system->texture(ustring("wood.<UDIM>.tif"), o, 0, 0, 0, 0, 0, 0, 1, value) && said(system, "wood.<UDIM>.tif: no tile of this name"), "no tile");
    check(!system->is_udim(ustring("wood.<UDIM>.tif")) && !system->is_udim(ramp()), "is_udim of other names");
    check(!system->resolve_udim(ustring("wood.<UDIM>.tif"), 1.5f, 0.5f) && said(system, "wood.<UDIM>.tif: "), "resolve_udim without tiles");
    check(!system->resolve_udim(ramp(), 0.5f, 0.5f) && said(system, "no UDIM name"), "resolve_udim of a file");
    system->inventory_udim(ustring("wood.<UDIM>.tif"), names, across, down);
    check(names.empty() && !across && !down && said(system, "wood.<UDIM>.tif: "), "inventory_udim without tiles");
    // each mark, with its names for the tiles at 0 0 and 1 2, in a folder of the search path
    static const char *const marks[][3] = {{"a.<UDIM>.tif", "a.1001.tif", "a.1022.tif"}, {"b.%(UDIM)d.tif", "b.1001.tif", "b.1022.tif"},
                                           {"c<u><v>.tif", "cu0v0.tif", "cu1v2.tif"}, {"d<U><V>.tif", "du1v1.tif", "du2v3.tif"},
                                           {"e<uvtile>.tif", "eu0_v0.tif", "eu1_v2.tif"}, {"f<UVTILE>.tif", "fu1_v1.tif", "fu2_v3.tif"},
                                           {"g_u##v##.tif", "g_u00v00.tif", "g_u01v02.tif"}};
    for (const auto &it : marks) {
        const ustring pattern(it[0]);
        const std::string what = std::string(it[0]) + ": ";
        copy(folder + "/ramp.tif", other + "/" + it[1]), copy(folder + "/ramp.tif", other + "/" + it[2]);
        check(system->is_udim(pattern) && system->good(system->get_texture_handle(pattern)), what + "is_udim");
        bool is_right = system->texture(pattern, o, 5.5f / 128, 10.5f / 64, 0, 0, 0, 0, 1, value) && is_near(value[0], at(5, 10));
        is_right &= system->texture(pattern, o, 1 + 7.5f / 128, 2 + 10.5f / 64, 0, 0, 0, 0, 1, value) && is_near(value[0], at(7, 10));
        // below 0 the tile is the first one, and the rest counts from the whole number below
        is_right &= system->texture(pattern, o, -2 + 9.5f / 128, 10.5f / 64, 0, 0, 0, 0, 1, value) && is_near(value[0], at(9, 10));
        check(is_right, what + "values of both tiles");
        o.fill = 0.5f;
        for (float s : {1.5f, 11.5f, 1e30f})
            check(!system->texture(pattern, o, s, 0.5f, 0, 0, 0, 0, 1, value) && value[0] == 0.5f && said(system, it[0]), what + "a missing tile");
        o.missingcolor = pink;
        check(system->texture(pattern, o, 1.5f, 0.5f, 0, 0, 0, 0, 4, value) && value[1] == 0.25f && !system->has_error(), what + "missingcolor");
        o.missingcolor = nullptr;
        check(!system->texture(pattern, o, std::nanf(""), 0.5f, 0, 0, 0, 0, 1, value) && said(system, "finite"), what + "no number");
        check(system->resolve_udim(pattern, 1.5f, 2.5f) == system->get_texture_handle(ustring(it[2])) && !system->resolve_udim(pattern, 0, 1)
                  && said(system, it[0]), what + "resolve_udim");
        system->inventory_udim(pattern, names, across, down);
        check(across == 2 && down == 3 && names.size() == 6 && names[0] == ustring(other + "/" + it[1]) && names[1].empty()
                  && names[5] == ustring(other + "/" + it[2]), what + "inventory_udim");
        check(system->get_texture_info(pattern, 0, ustring("udim"), OIIO::TypeInt, &number) && number == 1
                  && system->get_texture_info(pattern, 0, ustring("miplevels"), OIIO::TypeInt, &number) && number == 8, what + "facts");
        check(!system->get_texels(pattern, o, 0, 0, 1, 0, 1, 0, 1, 0, 1, OIIO::TypeFloat, value) && said(system, "resolve_udim"), what + "get_texels");
    }
    const ustring pattern("a.<UDIM>.tif");
    OIIO::TextureOptBatch many;
    many.swrap = many.twrap = OIIO::Tex::Wrap::Clamp;
    many.interpmode = OIIO::Tex::InterpMode::Closest;
    float batch[OIIO::Tex::BatchWidth], s[OIIO::Tex::BatchWidth], t[OIIO::Tex::BatchWidth], none[OIIO::Tex::BatchWidth] = {0};
    for (int i = 0; i < OIIO::Tex::BatchWidth; i++)
        s[i] = float(i % 2) + (float(i) + 0.5f) / 128, t[i] = float(i % 2 * 2) + 10.5f / 64;
    bool is_right = system->texture(pattern, many, OIIO::Tex::RunMaskOn, s, t, none, none, none, none, 1, batch);
    for (int i = 0; i < OIIO::Tex::BatchWidth; i++) is_right = is_right && is_near(batch[i], at(i, 10));
    check(is_right, "a batch over two tiles");
    // a tile that comes later, one that is replaced, and one that is removed
    copy(folder + "/ramp.tif", other + "/a.1003.tif"), copy(folder + "/rgb.tif", other + "/a.1022.tif");
    check(!system->texture(pattern, o, 2.5f, 2.5f, 0, 0, 0, 0, 1, value) && said(system, "tile 1023 has no file"), "a missing tile has a number");
    copy(folder + "/ramp.tif", other + "/a.1023.tif");
    std::remove((other + "/a.1001.tif").c_str());
    system->invalidate(pattern, true);
    check(said(system, "a.1001.tif"), "a tile that is gone");
    check(system->texture(pattern, o, 2 + 5.5f / 128, 2 + 10.5f / 64, 0, 0, 0, 0, 1, value) && is_near(value[0], at(5, 10)), "a new tile");
    check(system->texture(pattern, o, 1.4f, 2.4f, 0, 0, 0, 0, 3, value) && value[2] > 0, "a tile that was replaced");
    check(!system->texture(pattern, o, 0.5f, 0.5f, 0, 0, 0, 0, 3, value) && said(system, "a.1001.tif"), "the one that is gone");
    check(system->good(system->get_texture_handle(pattern)), "the set is still there");
    // a set whose only tile cannot be read, and one that has another tile
    const ustring bad("y.<UDIM>.tif");
    copy(folder + "/bad.tif", other + "/y.1001.tif");
    check(!system->good(system->get_texture_handle(bad)) && !system->texture(bad, o, 0.5f, 0.5f, 0, 0, 0, 0, 1, value)
              && said(system, "y.1001.tif"), "a set of a bad tile");
    copy(folder + "/ramp.tif", other + "/y.1002.tif");
    system->invalidate(bad);
    check(system->good(system->get_texture_handle(bad)) && system->texture(bad, o, 1 + 5.5f / 128, 10.5f / 64, 0, 0, 0, 0, 1, value)
              && is_near(value[0], at(5, 10)) && !system->texture(bad, o, 0.5f, 0.5f, 0, 0, 0, 0, 1, value) && said(system, "y.1001.tif"),
          "a set of a bad tile and a good one");
}

void of_facts(TextureSystem *system)
{
    int two[2] = {0, 0}, value = 0;
    check(system->get_texture_info(ramp(), 0, ustring("resolution"), TypeDesc(TypeDesc::INT, 2), two) && two[0] == 128 && two[1] == 64, "resolution");
    check(system->get_texture_info(ramp(), 0, ustring("miplevels"), OIIO::TypeInt, &value) && value == 8, "miplevels");
    check(!system->get_texture_info(ramp(), 1, ustring("miplevels"), OIIO::TypeInt, &value) && said(system, "one subimage"), "a subimage");
    check(!system->get_texture_info(ramp(), 0, ustring("averagecolor"), OIIO::TypeFloat, two) && said(system, "averagecolor"), "unknown facts");
    check(!system->get_texture_info(ramp(), 0, ustring("channels"), OIIO::TypeString, two) && said(system, "channels"), "another type");
    check(!system->get_texture_info(ramp(), 0, ustring("channels"), OIIO::TypeInt, nullptr) && said(system, "NULL"), "no room for a fact");
    const OIIO::ImageSpec *spec = system->imagespec(ramp());
    check(spec && spec->width == 128 && spec->height == 64 && spec->nchannels == 1 && spec->format == OIIO::TypeUInt16
              && spec->channelnames.size() == 1 && spec == system->imagespec(ramp()), "imagespec");
    OIIO::ImageSpec none;
    check(!system->get_imagespec(ramp(), 3, none) && said(system, "one subimage"), "the spec of a subimage");
    TextureOpt o;
    std::vector<std::uint16_t> texels(6);
    check(system->get_texels(ramp(), o, 0, 126, 129, 5, 7, 0, 1, 0, 1, OIIO::TypeUInt16, texels.data())
              && texels == std::vector<std::uint16_t>({126 * 256 + 5, 127 * 256 + 5, 0, 126 * 256 + 6, 127 * 256 + 6, 0}), "get_texels");
    float floats[2];
    check(system->get_texels(ramp(), o, 3, 1, 2, 1, 2, 0, 1, 0, 2, OIIO::TypeFloat, floats) && is_near(floats[0], 3000.0 / 65535)
              && floats[1] == 0, "get_texels as floats");
    for (int bad = 0; bad < 6; bad++) {
        bool is_made = system->get_texels(ramp(), o, bad == 0 ? 9 : bad == 1 ? -1 : 0, 0, bad == 2 ? -1 : 1, 0, bad == 3 ? -1 : 1, 0,
                                          bad == 4 ? 2 : 1, bad == 5 ? 1 : 0, bad == 5 ? 0 : 1, OIIO::TypeUInt8, texels.data());
        check(!is_made && said(system, "ramp.tif"), "get_texels with a bad range, " + std::to_string(bad));
    }
    check(!system->get_texels(ramp(), o, 0, 0, 1, 0, 1, 0, 1, 0, 1, OIIO::TypeHalf, texels.data()) && said(system, "half"), "get_texels of halves");
}

void of_attributes()
{
    TextureSystem *system = TextureSystem::create(false);
    int number = 0;
    float real = 0;
    double more = 0;
    std::string text;
    char *place = nullptr;
    check(system->attribute("max_memory_MB", 100.0f) && system->getattribute("max_memory_MB", real) && real == 100, "max_memory_MB");
    check(system->attribute("options", "max_open_files=33, autotile=128,automip=1,searchpath=\"a:b,c\",gray_to_rgb=1"), "options");
    check(system->getattribute("max_open_files", number) && number == 33, "max_open_files");
    check(system->getattribute("autotile", OIIO::TypeInt, &number) && number == 128, "autotile");
    check(system->getattribute("automip", more) && more == 1, "automip");
    check(system->getattribute("searchpath", text) && text == "a:b,c" && system->getattribute("searchpath", &place) && text == place, "searchpath");
    check(system->getattributetype("searchpath") == OIIO::TypeString && system->getattributetype("autotile") == OIIO::TypeInt
              && system->getattributetype("nonsense") == OIIO::TypeUnknown && !system->has_error(), "getattributetype");
    const char *path = "x:y";
    check(system->attribute("searchpath", OIIO::TypeString, &path) && system->getattribute("searchpath", text) && text == "x:y", "by type");
    check(!system->attribute("max_memory_MB", -1.0f) && said(system, "0 to 4096"), "memory below 0");
    check(!system->attribute("max_memory_MB", std::nanf("")) && said(system, "0 to 4096"), "memory that is no number");
    check(!system->attribute("max_open_files", 0) && said(system, "1 to 1024"), "no open files");
    check(!system->attribute("autotile", 24) && said(system, "multiple of 16"), "autotile 24");
    check(!system->attribute("autotyle", 64) && said(system, "autotyle"), "a misspelt name");
    check(!system->attribute("searchpaths", "x") && said(system, "searchpaths"), "a misspelt text");
    check(!system->attribute("searchpath", 3) && said(system, "searchpath"), "a number for a text");
    check(!system->attribute("autotile", "64") && said(system, "autotile"), "a text for a number");
    check(!system->attribute("autotile", OIIO::TypeMatrix44, &number) && said(system, "type"), "another type");
    check(!system->attribute("autotile", OIIO::TypeInt, nullptr) && said(system, "NULL"), "no value");
    check(!system->attribute("options", "automip") && said(system, "="), "options without a value");
    check(!system->attribute("accept_untiled", 0) && said(system, "always 1") && system->attribute("accept_untiled", 1), "accept_untiled");
    check(!system->attribute("forcefloat", 1) && said(system, "always 0"), "forcefloat");
    check(!system->getattribute("nonsense", number) && said(system, "nonsense"), "an unknown attribute");
    TextureOpt o = plain();
    float value;
    check(system->texture(ramp(), o, 0.5f, 0.5f, 0, 0, 0, 0, 1, &value), "a file is opened");
    check(!system->attribute("max_memory_MB", 50.0f) && said(system, "cannot change any more"), "memory while it runs");
    check(!system->attribute("max_open_files", 50) && said(system, "cannot change any more"), "open files while it runs");
    check(!system->attribute("autotile", 64) && said(system, "cannot change any more"), "autotile while it runs");
    check(!system->attribute("automip", 0) && said(system, "cannot change any more"), "automip while it runs");
    check(system->attribute("max_memory_MB", 100.0f) && system->attribute("autotile", 128), "the same values while it runs");
    check(system->attribute("gray_to_rgb", 0) && system->attribute("flip_t", 0) && system->attribute("searchpath", folder), "what may change");
    check(system->getattribute("max_memory_MB", real) && real == 100, "it stays");
    std::int64_t bytes = 0;
    check(system->getattribute("stat:bytes_read", OIIO::TypeInt64, &bytes) && bytes > 0, "stat:bytes_read");
    check(has(system->getstats(1), "lookups  ") && has(system->getstats(2), (folder + "/ramp.tif").c_str())
              && system->getstats(0).empty(), "getstats: " + system->getstats(2));
    system->reset_stats();
    system->close(ramp());
    system->close_all();
    TextureSystem::destroy(system);
}

void of_batches(TextureSystem *system)
{
    constexpr int W = OIIO::Tex::BatchWidth;
    OIIO::TextureOptBatch o;
    o.interpmode = OIIO::Tex::InterpMode::Closest, o.swrap = o.twrap = OIIO::Tex::Wrap::Clamp;
    alignas(OIIO::Tex::BatchAlign) float s[W], t[W], none[W] = {0}, step[W], results[2 * W], ds[2 * W], dt[2 * W];
    for (int i = 0; i < W; i++) s[i] = (float(i) + 0.5f) / 128, t[i] = (float(2 * i) + 0.5f) / 64, step[i] = 0.75f * float(1 << i % 6) / 64;
    for (OIIO::Tex::RunMask mask : {OIIO::Tex::RunMaskOn, OIIO::Tex::RunMask(0), OIIO::Tex::RunMask(0x5a5a) & OIIO::Tex::RunMaskOn}) {
        std::fill(results, results + 2 * W, -1.0f);
        o.fill = 0.5f;
        bool is_so = system->texture(ramp(), o, mask, s, t, none, none, none, none, 2, results);
        for (int i = 0; i < W; i++)
            is_so &= mask >> i & 1 ? is_near(results[i], at(i, 2 * i)) && results[W + i] == 0.5f : results[i] == -1 && results[W + i] == -1;
        check(is_so, "a batch at places");
    }
    o.mipmode = OIIO::Tex::MipMode::OneLevel;
    bool is_so = system->texture(ramp(), o, OIIO::Tex::RunMaskOn, s, t, step, none, none, step, 1, results);
    for (int i = 0; i < W; i++) is_so &= is_near(results[i], i % 6 ? 1000.0 * (i % 6) / 65535 : at(i, 2 * i));
    check(is_so, "a batch with a level each");
    o.mipmode = OIIO::Tex::MipMode::NoMIP, o.interpmode = OIIO::Tex::InterpMode::Bilinear;
    for (int i = 0; i < W; i++) s[i] += 5.25f / 128;
    is_so = system->texture(ramp(), o, OIIO::Tex::RunMaskOn, s, t, step, none, none, step, 2, results, ds, dt);
    for (int i = 1; i < W; i++) is_so &= is_near(results[i], (256 * (i + 5.25) + 2 * i) / 65535) && is_near(ds[i], 256.0 * 128 / 65535, 0.01) && ds[W + i] == 0;
    check(is_so, "derivatives of the results of a batch");
    s[3] = std::nanf("");
    is_so = !system->texture(ramp(), o, OIIO::Tex::RunMaskOn, s, t, none, none, none, none, 1, results) && said(system, "finite");
    check(is_so && results[3] == 0.5f && is_near(results[2], (256 * 7.25 + 4) / 65535), "a batch with one bad place");
    o.fill = 0.25f;
    is_so = !system->texture(ustring("nosuch.tif"), o, OIIO::Tex::RunMaskOn, t, t, none, none, none, none, 1, results) && said(system, "nosuch.tif");
    check(is_so && results[W - 1] == 0.25f, "a batch of a missing file");
    check(!system->texture(ramp(), o, OIIO::Tex::RunMaskOn, t, t, none, none, none, none, 1, nullptr) && said(system, "NULL"), "a batch without room");
}

// More threads than the cache has passes, by name and by handle, and threads that come and go.
void of_threads(TextureSystem *system)
{
    std::atomic<int> wrong{0};
    TextureSystem::TextureHandle *file = system->get_texture_handle(ramp());
    auto work = [&](int number) {
        TextureSystem::Perthread *own = number % 2 ? system->get_perthread_info() : nullptr;
        TextureSystem::Perthread *made = number % 5 ? nullptr : system->create_thread_info();
        for (int i = 0; i < 300; i++) {
            TextureOpt o = plain();
            float value = -1;
            int x = (i * 7 + number) % 128, y = i % 64;
            float s = (float(x) + 0.5f) / 128, t = (float(y) + 0.5f) / 64;
            bool is_good = number % 3 ? system->texture(file, made ? made : own, o, s, t, 0, 0, 0, 0, 1, &value)
                                      : system->texture(ramp(), o, s, t, 0, 0, 0, 0, 1, &value);
            if (!is_good || !is_near(value, at(x, y))) wrong++;
            if (i % 100 == 7) system->invalidate(ramp(), number % 2);
        }
        system->texture(ustring("missing " + std::to_string(number)), *std::make_unique<TextureOpt>(), 0, 0, 0, 0, 0, 0, 0, nullptr);
        if (!has(system->geterror(), ("missing " + std::to_string(number)).c_str())) wrong++;
        if (made) system->destroy_thread_info(made);
    };
    for (int turn = 0; turn < 3; turn++) {
        std::vector<std::thread> threads;
        for (int n = 0; n < 24; n++) threads.emplace_back(work, n);
        for (std::thread &it : threads) it.join();
    }
    check(!wrong, std::to_string(wrong) + " lookups of threads are wrong");
    check(!system->has_error(), "errors are a thread's own");
}

// A file that is replaced by one with other channels, removed, and back again.
void of_replaced(TextureSystem *system)
{
    std::string name = other + "/changing.tif";
    TextureOpt o = plain();
    float value[3] = {9, 9, 9};
    TextureSystem::TextureHandle *file = system->get_texture_handle(ustring(name));
    check(system->texture(file, nullptr, o, 0.5f / 128, 10.5f / 64, 0, 0, 0, 0, 3, value) && is_near(value[0], at(0, 10)) && value[2] == 0, "before");
    copy(folder + "/rgb.tif", name);
    check(system->texture(file, nullptr, o, 0.5f / 128, 10.5f / 64, 0, 0, 0, 0, 3, value) && is_near(value[0], at(0, 10)), "what is cached stays");
    system->invalidate(ustring(name), false);
    int channels = 0;
    check(system->get_texture_info(file, nullptr, 0, ustring("channels"), OIIO::TypeInt, &channels) && channels == 3, "its channels");
    check(system->texture(file, nullptr, o, 0.4f, 0.4f, 0, 0, 0, 0, 3, value) && value[2] > 0, "after");
    std::remove(name.c_str());
    system->invalidate_all();
    check(said(system, "changing.tif"), "it is gone");
    check(!system->good(file) && !system->texture(file, nullptr, o, 0.4f, 0.4f, 0, 0, 0, 0, 3, value) && said(system, "changing.tif"), "gone");
    copy(folder + "/ramp.tif", name);
    system->invalidate_all(true);
    check(system->good(file) && system->texture(file, nullptr, o, 0.5f / 128, 10.5f / 64, 0, 0, 0, 0, 3, value) && is_near(value[0], at(0, 10)),
          "back: " + system->geterror());
}

void of_systems()
{
    TextureSystem *one = TextureSystem::create(), *two = TextureSystem::create(true), *own = TextureSystem::create(false);
    check(one == two && own != one && !TextureSystem::create(false, own), "the shared system");
    TextureOpt o = plain();
    float value = -1;
    TextureSystem::destroy(one);
    check(two->texture(ramp(), o, 0.5f / 128, 0.5f / 64, 0, 0, 0, 0, 1, &value) && value == 0, "it stays for the other");
    TextureSystem::destroy(two, true);
    check(own->texture(ramp(), o, 0.5f / 128, 1.5f / 64, 0, 0, 0, 0, 1, &value), "one of our own");
    TextureSystem::destroy(own);
    TextureSystem::destroy(nullptr);
    check(ustring("a") == ustring(std::string("a")) && ustring("a") != ustring("b") && ustring().empty() && ustring("a") < ustring("b")
              && ustring("abc").length() == 3 && ustring("a") == "a" && std::hash<ustring>()(ustring("x")) == ustring("x").hash(), "ustring");
    check(std::string(TypeDesc(TypeDesc::UINT16).c_str()) == "uint16" && TypeDesc(TypeDesc::INT, 2) != OIIO::TypeInt, "TypeDesc");
}

}  // namespace

int main(int count, char **words)
{
    if (count != 3) return 2;
    folder = words[1], other = words[2];
    copy(folder + "/ramp.tif", other + "/changing.tif");
    TextureSystem *system = TextureSystem::create(false);
    of_values(system);
    of_places(system);
    of_options(system);
    of_files(system);
    of_search(system);
    of_tiles(system);
    of_facts(system);
    of_attributes();
    of_batches(system);
    of_threads(system);
    of_replaced(system);
    of_systems();
    TextureSystem::destroy(system);
    std::cout << passed << " passed, " << failed << " failed\n";
    return failed ? 1 : 0;
}
