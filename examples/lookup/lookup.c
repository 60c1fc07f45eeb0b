/* One lookup in the middle of an image: lookup FOLDER NAME. It prints the library's version and three values.
 *
 *     cc lookup.c $(pkg-config --cflags --libs texcache) -o lookup
 */
#include <texcache.h>

#include <stdio.h>

int main(int count, char **arguments)
{
    texcache *cache = NULL;
    texcache_pass *pass = NULL;
    uint32_t file;
    uint16_t rgb[3] = {0};
    texcache_texture_options options = texcache_default_texture_options(3);
    int refused;
    if (count != 3) {
        fprintf(stderr, "usage: lookup FOLDER NAME\n");
        return 2;
    }
    refused = texcache_open(&cache, arguments[1], NULL);
    if (!refused) refused = texcache_this_thread(cache, &pass);
    if (!refused) refused = texcache_find(cache, arguments[2], &file);
    if (!refused) refused = texcache_texture(pass, file, &options, 0.5, 0.5, rgb, 3, NULL);
    if (refused) fprintf(stderr, "lookup: %s\n", texcache_last_error());
    else printf("%s: %u %u %u\n", texcache_version(), rgb[0], rgb[1], rgb[2]);
    texcache_close(&cache);
    return refused != 0;
}
