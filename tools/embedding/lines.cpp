// The same as lines.c through texcache.hpp, by one thread and for lookups, regions and sizes alone:
// lines FOLDER < LIST. A request of another kind is the line `-`.
#include "texcache.hpp"
#include <iostream>
#include <sstream>

using namespace texcache_cpp;

static unsigned number_of(const std::string &word, std::initializer_list<const char *> words)
{
    unsigned n = 0;
    for (const char *it : words) {
        if (word == it) break;
        n++;
    }
    return n;
}

static std::string refusal(const Refused &e)
{
    std::ostringstream said;
    const texcache_answer &a = e.answer;
    said << texcache_error_string(e.status);
    if (e.status == TEXCACHE_NO_NAME || e.status == TEXCACHE_NO_TILE) return "no such file";
    if (e.status == TEXCACHE_BAD_FILE) {
        said << ' ' << a.generation << ' ' << a.detail;
        if (a.detail >= 5 && a.detail <= 7) said << ' ' << a.part;
        if (a.detail == 12) said << ' ' << a.part;
        if (a.detail == 7 || a.detail == 12) said << ' ' << a.value;
    } else if (e.status == TEXCACHE_NO_LEVEL) {
        said << ' ' << a.generation << ' ' << a.detail;
    } else if (e.status == TEXCACHE_TILE_TOO_LARGE || e.status == TEXCACHE_OUTSIDE) {
        said << ' ' << a.generation;
    }
    return said.str();
}

static std::string answered(const Cache &cache, Pass &pass, const std::string &line)
{
    std::istringstream from(line);
    std::ostringstream said;
    std::string word, swrap, twrap, filter, name;
    texcache_lookup r = texcache_lookup();
    const texcache_answer &a = pass.answer();
    std::uint16_t values[8];
    from >> word;
    auto file = [&] {
        from.get();
        std::getline(from, name);
        return cache.find(name);
    };
    if (word == "sync") return word;
    if (word == "tex" || word == "texd") {
        if (word == "tex") from >> r.s >> r.t >> r.lod >> swrap >> twrap >> filter >> r.channels;
        else from >> r.s >> r.t >> r.dsdx >> r.dtdx >> r.dsdy >> r.dtdy >> swrap >> twrap >> r.channels;
        r.swrap = number_of(swrap, {"black", "clamp", "periodic", "mirror"});
        r.twrap = number_of(twrap, {"black", "clamp", "periodic", "mirror"});
        r.filter = number_of(filter, {"closest", "bilinear", "trilinear"});
        std::uint32_t number = file();
        if (word == "tex") pass.texture_fixed(number, r, values);
        else pass.texture_d_fixed(number, r, values);
        said << word << ' ' << a.generation;
        for (unsigned i = 0; i < r.channels; i++) said << ' ' << values[i];
    } else if (word == "pixels") {
        texcache_region region;
        from >> region.level >> region.x >> region.y >> region.w >> region.h;
        Pixels pixels = pass.pixels(file(), region);
        said << word << ' ' << pixels.generation << ' ' << pixels.channels;
        for (auto value : pixels.values) said << ' ' << value;
    } else if (word == "info") {
        texcache_info info = pass.info(file());
        said << word << ' ' << a.generation << ' ' << info.width << ' ' << info.height << ' ' << info.channels << ' ' << info.depth
             << ' ' << info.stored << ' ' << info.levels;
    } else {
        return "-";
    }
    return said.str();
}

int main(int, char **words)
{
    Cache cache(words[1]);
    Pass pass(cache);
    std::string line;
    while (std::getline(std::cin, line)) {
        if (!line.empty() && line.back() == '\r') line.pop_back();
        if (line.empty() || line[0] == '#') continue;
        try {
            std::cout << answered(cache, pass, line) << '\n';
        } catch (const Refused &e) {
            std::cout << refusal(e) << '\n';
        }
    }
}
