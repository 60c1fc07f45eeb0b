// One lookup in the middle of an image: lookup_cpp FOLDER NAME. CMakeLists.txt builds it with the installed library.
#include <texcache.hpp>

#include <cstdint>
#include <iostream>

int main(int count, char **arguments)
{
    if (count != 3) {
        std::cerr << "usage: lookup_cpp FOLDER NAME\n";
        return 2;
    }
    try {
        texcache_cpp::Cache cache(arguments[1]);
        texcache_cpp::Pass pass = cache.this_thread();
        std::uint16_t rgb[3];
        pass.texture(cache.find(arguments[2]), texcache_default_texture_options(3), 0.5, 0.5, rgb);
        std::cout << texcache_version() << ": " << rgb[0] << ' ' << rgb[1] << ' ' << rgb[2] << '\n';
    } catch (const texcache_cpp::Refused &refused) {
        std::cerr << "lookup_cpp: " << refused.what() << '\n';
        return 1;
    }
}
