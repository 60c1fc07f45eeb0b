/* Large caches: large FOLDER, an empty folder that it may write to. A cache may have 1023 passes beside its own, a shard
 * keeps as many tiles as it was asked to, and 256 threads look up the same values as one. */
#include "images.h"
#include <pthread.h>

enum { SIDE = 1120, TILE = 16, ACROSS = SIDE / TILE, TILES = ACROSS * ACROSS, THREADS = 256, LOOKUPS = 400 };

static texcache *cache;
static uint32_t file;

static unsigned sample(unsigned x, unsigned y, unsigned channel)
{
    return (x * 7 + y * 13 + channel) & 255;
}

static texcache_options with(uint32_t passes, uint32_t shards, uint32_t tiles_per_shard)
{
    texcache_options o = texcache_default_options();
    o.passes = passes, o.shards = shards, o.tiles_per_shard = tiles_per_shard, o.automip = false;
    return o;
}

/* The texel in the middle of a tile, by the nearest filter. */
static uint16_t texel_of(texcache_pass *pass, unsigned tile)
{
    texcache_texture_options o = texcache_default_texture_options(1);
    unsigned x = tile % ACROSS * TILE + 5, y = tile / ACROSS * TILE + 9;
    uint16_t value = 0;
    o.filter = TEXCACHE_CLOSEST;
    SAYS(texcache_texture(pass, file, &o, (x + 0.5) / SIDE, (y + 0.5) / SIDE, &value, 1, NULL), TEXCACHE_OK);
    IS(value == 257 * sample(x, y, 0));
    return value;
}

/* Each pass holds four tiles; one pass more than the option says is refused. */
static void passes(const char *folder)
{
    enum { MOST = 1024 };
    static texcache_pass *all[MOST];
    texcache_options o = with(MOST, 16, 0);
    SAYS(texcache_open(&cache, folder, &o), TEXCACHE_OK);
    file = file_of(cache, "tiles.tif");
    for (unsigned i = 0; i < MOST - 1; i++) {
        SAYS(texcache_new_pass(cache, &all[i]), TEXCACHE_OK);
        for (unsigned k = 0; k < 4; k++) {
            unsigned tile = (4 * i + k) % TILES;
            SAYS(texcache_get_tile(all[i], file, 0, tile % ACROSS * TILE, tile / ACROSS * TILE, NULL), TEXCACHE_OK);
        }
        texel_of(all[i], i);
    }
    SAYS(texcache_new_pass(cache, &all[MOST - 1]), TEXCACHE_NO_PERMIT);
    for (unsigned i = 0; i < MOST - 1; i++) SAYS(texcache_end(&all[i]), TEXCACHE_OK);
    SAYS(texcache_close(&cache), TEXCACHE_OK);
}

/* How many bytes a second walk over all tiles reads again, in one shard that is to keep this many. */
static uint64_t read_again(const char *folder, uint32_t tiles_per_shard)
{
    texcache_options o = with(2, 1, tiles_per_shard);
    texcache_statistics before, after;
    texcache_pass *pass;
    SAYS(texcache_open(&cache, folder, &o), TEXCACHE_OK);
    file = file_of(cache, "tiles.tif");
    SAYS(texcache_new_pass(cache, &pass), TEXCACHE_OK);
    for (unsigned tile = 0; tile < TILES; tile++) texel_of(pass, tile);
    SAYS(texcache_stats(pass, &before), TEXCACHE_OK);
    for (unsigned tile = 0; tile < TILES; tile++) texel_of(pass, tile);
    SAYS(texcache_stats(pass, &after), TEXCACHE_OK);
    SAYS(texcache_end(&pass), TEXCACHE_OK);
    SAYS(texcache_close(&cache), TEXCACHE_OK);
    return after.bytes - before.bytes;
}

static void *looks_up(void *number)
{
    texcache_pass *pass;
    unsigned random = (unsigned)(uintptr_t)number * 2654435761u + 1;
    SAYS(texcache_this_thread(cache, &pass), TEXCACHE_OK);
    for (unsigned i = 0; i < LOOKUPS; i++) random = random * 1664525u + 1013904223u, texel_of(pass, (random >> 8) % TILES);
    return NULL;
}

static void threads(const char *folder)
{
    static pthread_t all[THREADS];
    texcache_options o = with(THREADS + 1, 4, 0);
    o.budget = 1 << 18;
    SAYS(texcache_open(&cache, folder, &o), TEXCACHE_OK);
    file = file_of(cache, "tiles.tif");
    for (unsigned i = 0; i < THREADS; i++)
        if (pthread_create(&all[i], NULL, looks_up, (void *)(uintptr_t)i)) exit(2);
    for (unsigned i = 0; i < THREADS; i++) pthread_join(all[i], NULL);
    SAYS(texcache_close(&cache), TEXCACHE_OK);
}

int main(int count, char **arguments)
{
    if (count != 2) return 2;
    put_image(arguments[1], "tiles.tif", (image){SIDE, SIDE, 1, TILE, 1, sample});
    passes(arguments[1]);
    IS(read_again(arguments[1], 0) > 1000000);
    IS(read_again(arguments[1], TILES) == 0);
    threads(arguments[1]);
    texcache_options most = with(1024, 64, 65536);
    most.budget = UINT64_C(1099511627776);
    SAYS(texcache_open(&cache, arguments[1], &most), TEXCACHE_OK);
    SAYS(texcache_close(&cache), TEXCACHE_OK);
    if (failures) printf("%d failed\n", failures);
    return failures != 0;
}
