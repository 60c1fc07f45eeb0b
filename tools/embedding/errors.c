/* The words of errors: errors FOLDER, an empty folder that it may write to. Each failing call leaves a text with what is
 * wrong, its number and its range, or the file's name, the system's error and what helps. */
#define _XOPEN_SOURCE 700
#include "images.h"
#include <errno.h>
#include <math.h>
#include <pthread.h>
#include <sys/stat.h>
#include <sys/wait.h>
#include <unistd.h>

static texcache *cache;
static texcache_pass *pass;
static char path[4096];

/* The call fails so, and each of the words is in its text, in this order. */
#define TELLS(call, status, ...)                                                                        \
    do {                                                                                                \
        const char *words[] = {__VA_ARGS__};                                                            \
        SAYS(call, status);                                                                             \
        const char *text = texcache_last_error(), *at = text;                                           \
        for (size_t i = 0; at && i < sizeof words / sizeof *words; i++) at = strstr(at, words[i]);      \
        if (!at || strlen(text) > 2047) {                                                               \
            printf("line %d: %s says '%s'\n", __LINE__, #call, text);                                   \
            failures++;                                                                                 \
        }                                                                                               \
    } while (0)

static unsigned grey(unsigned x, unsigned y, unsigned channel)
{
    return x + y + channel;
}

static const char *in(const char *folder, const char *name)
{
    snprintf(path, sizeof path, "%s/%s", folder, name);
    return path;
}

static void opening(const char *folder)
{
    texcache_options o[8];
    texcache *none;
    char longer[9000];
    for (int i = 0; i < 8; i++) o[i] = texcache_default_options();
    o[0].budget = UINT64_C(1099511627777), o[1].shards = 0, o[2].passes = 1025, o[3].handles = 1025, o[4].autotile = 24;
    o[5].slots = 65537, o[6].size = 4, o[7].tiles_per_shard = 65537;
    TELLS(texcache_open(&none, folder, &o[0]), TEXCACHE_BAD_OPTIONS, "budget is 1099511627777", "0 to 1099511627776");
    TELLS(texcache_open(&none, folder, &o[1]), TEXCACHE_BAD_OPTIONS, "shards is 0", "1 to 64");
    TELLS(texcache_open(&none, folder, &o[2]), TEXCACHE_BAD_OPTIONS, "passes is 1025", "1 to 1024");
    TELLS(texcache_open(&none, folder, &o[3]), TEXCACHE_BAD_OPTIONS, "handles is 1025", "1 to 1024");
    TELLS(texcache_open(&none, folder, &o[4]), TEXCACHE_BAD_OPTIONS, "autotile is 24", "a multiple of 16 up to 4096");
    TELLS(texcache_open(&none, folder, &o[5]), TEXCACHE_BAD_OPTIONS, "slots is 65537", "0 to 65536");
    TELLS(texcache_open(&none, folder, &o[7]), TEXCACHE_BAD_OPTIONS, "tiles_per_shard is 65537", "0 to 65536");
    TELLS(texcache_open(&none, folder, &o[6]), TEXCACHE_BAD_ARGUMENT, "options", "size", "texcache_default_options");
    TELLS(texcache_open(NULL, folder, NULL), TEXCACHE_BAD_ARGUMENT, "cache is NULL");
    TELLS(texcache_open(&none, NULL, NULL), TEXCACHE_BAD_ARGUMENT, "folder is NULL");
    TELLS(texcache_open(&none, in(folder, "nowhere"), NULL), TEXCACHE_NO_FOLDER, path, "cannot be opened", strerror(ENOENT));
    TELLS(texcache_open(&none, in(folder, "a.tif"), NULL), TEXCACHE_NO_FOLDER, path, strerror(ENOTDIR));
    memset(longer, 'x', sizeof longer);
    longer[sizeof longer - 1] = 0;
    TELLS(texcache_open(&none, longer, NULL), TEXCACHE_NO_FOLDER, "xxxx", strerror(ENAMETOOLONG));
    /* a name is not cut within a character */
    for (size_t i = 0; i + 2 < sizeof longer; i += 2) memcpy(longer + i, "\xc3\xa9", 2);
    TELLS(texcache_open(&none, longer, NULL), TEXCACHE_NO_FOLDER, "\xc3\xa9: the folder");
}

/* Names of no file, of one that is gone, of a pipe and of a link in its place. */
static void files(const char *folder)
{
    texcache_texture_options options = texcache_default_texture_options(1);
    texcache_info info;
    texcache_region region = {9, 0, 0, 1, 1};
    uint32_t file;
    uint16_t out[4];
    TELLS(texcache_find(cache, "moon.tif", &file), TEXCACHE_NO_NAME, "moon.tif: ", "no plain file", strerror(ENOENT));
    TELLS(texcache_find(cache, "red\n\033[31m.tif", &file), TEXCACHE_NO_NAME, "red??[31m.tif: ");
    TELLS(texcache_find(NULL, "moon.tif", &file), TEXCACHE_BAD_ARGUMENT, "cache is NULL");
    TELLS(texcache_find(cache, NULL, &file), TEXCACHE_BAD_ARGUMENT, "name is NULL");
    TELLS(texcache_find(cache, "a.tif", NULL), TEXCACHE_BAD_ARGUMENT, "file is NULL");
    TELLS(texcache_get_info(pass, 99, &info, NULL), TEXCACHE_NO_FILE, "number 99", "there are ");
    TELLS(texcache_get_info(pass, 0, NULL, NULL), TEXCACHE_BAD_ARGUMENT, "info is NULL");
    TELLS(texcache_get_info(NULL, 0, &info, NULL), TEXCACHE_BAD_ARGUMENT, "pass is NULL");
    TELLS(texcache_get_info(pass, file_of(cache, "it's lzw.tif"), &info, NULL), TEXCACHE_BAD_FILE, "it's lzw.tif: ",
          "Compression is 5, LZW", "What helps: tiffcp -c none 'it'\"'\"'s lzw.tif' OUT.tif");
    TELLS(texcache_texture(pass, file_of(cache, "short.tif"), &options, 0, 0, out, 1, NULL), TEXCACHE_BAD_FILE, "short.tif: ",
          "shorter than a header");
    uint32_t gone = file_of(cache, "gone.tif");
    unlink(in(folder, "gone.tif"));
    TELLS(texcache_texture(pass, gone, &options, 0, 0, out, 1, NULL), TEXCACHE_READ_FAULT, "gone.tif: ", strerror(ENOENT));
    TELLS(texcache_invalidate(pass, gone, false, NULL), TEXCACHE_READ_FAULT, "gone.tif: ", strerror(ENOENT));
    mkfifo(in(folder, "gone.tif"), 0600);
    TELLS(texcache_get_info(pass, gone, &info, NULL), TEXCACHE_READ_FAULT, "gone.tif: ", "not a plain file");
    unlink(in(folder, "gone.tif"));
    if (symlink("gone.tif", path)) exit(2);
    TELLS(texcache_get_info(pass, gone, &info, NULL), TEXCACHE_READ_FAULT, "gone.tif: ", strerror(ELOOP));
    unlink(path);
    TELLS(texcache_get_pixels(pass, file_of(cache, "a.tif"), &region, out, 4, NULL), TEXCACHE_NO_LEVEL, "a.tif: ", "5 levels");
    region.level = 0, region.w = 2048, region.h = 1024;
    TELLS(texcache_get_pixels(pass, file_of(cache, "a.tif"), &region, out, 4, NULL), TEXCACHE_REGION_TOO_LARGE, "1048576");
    region.w = 5, region.h = 1;
    TELLS(texcache_get_pixels(pass, file_of(cache, "a.tif"), &region, out, 4, NULL), TEXCACHE_SMALL_BUFFER, "room for 4 values",
          "5 are needed");
    TELLS(texcache_get_pixels(pass, 0, NULL, out, 4, NULL), TEXCACHE_BAD_ARGUMENT, "region is NULL");
    TELLS(texcache_get_tile(pass, file_of(cache, "a.tif"), 0, 16, 0, NULL), TEXCACHE_OUTSIDE, "a.tif: ", "no such texel");
}

/* Numbers of lookups. */
static void numbers(void)
{
    enum { COUNT = 100 };
    static double s[COUNT], t[COUNT];
    uint32_t a = file_of(cache, "a.tif");
    uint16_t out[COUNT];
    texcache_texture_options good = texcache_default_texture_options(1), bad[12];
    texcache_coordinates at = {s, t, NULL, NULL, NULL, NULL, 1};
    texcache_lookup r = texcache_lookup_at(0, 0, 0, 1);
    static const char *const names[] = {"swrap is 4", "twrap is 9", "channels is 0", "filter is 3", "lod is 70000",
                                        "max_probes is 33", "first_channel is 8", "lod_bias is -33", "swidth is -1",
                                        "twidth is not a number", "sblur is inf", "tblur is 16385"};
    for (int i = 0; i < 12; i++) bad[i] = good;
    bad[0].swrap = 4, bad[1].twrap = 9, bad[2].channels = 0, bad[3].filter = 3, bad[4].lod = 70000, bad[5].max_probes = 33;
    bad[6].first_channel = 8, bad[7].lod_bias = -33, bad[8].swidth = -1, bad[9].twidth = NAN, bad[10].sblur = INFINITY;
    bad[11].tblur = 16385;
    for (int i = 0; i < 12; i++) {
        bool is_of_points = i == 3 || i == 4;
        if (is_of_points) TELLS(texcache_texture(pass, a, &bad[i], 0, 0, out, 1, NULL), TEXCACHE_BAD_REQUEST, names[i], "it may be");
        else TELLS(texcache_texture_footprint(pass, a, &bad[i], 0, 0, 0, 0, 0, 0, out, 1, NULL), TEXCACHE_BAD_REQUEST, names[i],
                   "it may be");
    }
    TELLS(texcache_texture(pass, a, &good, NAN, 0, out, 1, NULL), TEXCACHE_BAD_REQUEST, "s is not a number", "-32768");
    TELLS(texcache_texture(pass, a, &good, 0, 40000.5, out, 1, NULL), TEXCACHE_BAD_REQUEST, "t is 40000.5", "below 32768");
    TELLS(texcache_texture_footprint(pass, a, &good, 20000, 0, 0, 0, 0, 0, out, 1, NULL), TEXCACHE_BAD_REQUEST, "s is 20000",
          "-16384 to 16384");
    TELLS(texcache_texture_footprint(pass, a, &good, 0, 0, 0, 0, 0, -INFINITY, out, 1, NULL), TEXCACHE_BAD_REQUEST,
          "dtdy is -inf", "below 16384");
    t[42] = -1e30;
    TELLS(texcache_texture_many(pass, a, &good, &at, COUNT, out, COUNT, NULL, NULL), TEXCACHE_BAD_REQUEST, "lookup 42: t is -1");
    t[42] = 0;
    TELLS(texcache_texture_many(pass, a, &good, &at, COUNT, out, 99, NULL, NULL), TEXCACHE_SMALL_BUFFER, "room for 99 values",
          "100 are needed");
    at.step = 0;
    TELLS(texcache_texture_many(pass, a, &good, &at, 2, out, 2, NULL, NULL), TEXCACHE_BAD_REQUEST, "step is 0", "at least 1");
    at.step = 1, at.dsdx = s;
    TELLS(texcache_texture_many(pass, a, &good, &at, 2, out, 2, NULL, NULL), TEXCACHE_BAD_ARGUMENT, "derivatives are NULL");
    TELLS(texcache_texture_many(pass, a, &good, NULL, 2, out, 2, NULL, NULL), TEXCACHE_BAD_ARGUMENT, "coordinates");
    TELLS(texcache_texture(pass, a, NULL, 0, 0, out, 1, NULL), TEXCACHE_BAD_ARGUMENT, "options is NULL");
    good.size = 40;
    TELLS(texcache_texture(pass, a, &good, 0, 0, out, 1, NULL), TEXCACHE_BAD_ARGUMENT, "another size");
    r.channels = 9;
    TELLS(texcache_texture_fixed(pass, a, &r, out, 9, NULL), TEXCACHE_BAD_REQUEST, "channels is 9", "1 to 8");
    r.channels = 3, r.dsdy = 1 << 30;
    TELLS(texcache_texture_d_fixed(pass, a, &r, out, 9, NULL), TEXCACHE_BAD_REQUEST, "DSDY is 1073741824", "1073741823");
    TELLS(texcache_texture_fixed(pass, a, &r, out, 2, NULL), TEXCACHE_SMALL_BUFFER, "room for 2 values", "3 are needed");
    TELLS(texcache_texture_fixed(pass, a, NULL, out, 2, NULL), TEXCACHE_BAD_ARGUMENT, "lookup is NULL");
}

static void tiles_and_passes(void)
{
    texcache_pass *more, *copy;
    texcache_tile tile;
    texcache_shard shard;
    uint16_t out[4];
    uint32_t a = file_of(cache, "a.tif");
    TELLS(texcache_tile_at(pass, 2, &tile), TEXCACHE_NOTHING_HELD, "no tile at place 2");
    TELLS(texcache_release_tile(pass, 0), TEXCACHE_NOTHING_HELD, "no tile at place 0");
    for (int i = 0; i < 4; i++) SAYS(texcache_get_tile(pass, a, 0, 0, 0, NULL), TEXCACHE_OK);
    TELLS(texcache_get_tile(pass, a, 0, 0, 0, NULL), TEXCACHE_HOLDS_FULL, "a.tif: ", "four tiles");
    TELLS(texcache_tile_texels(pass, 0, out, 4), TEXCACHE_SMALL_BUFFER, "room for 4 values", "256 are needed");
    while (!texcache_release_tile(pass, 0)) {}
    TELLS(texcache_shard_stats(pass, 77, &shard), TEXCACHE_NO_PART, "no shard 77");
    TELLS(texcache_stats(pass, NULL), TEXCACHE_BAD_ARGUMENT, "out is NULL");
    SAYS(texcache_new_pass(cache, &more), TEXCACHE_OK);
    TELLS(texcache_new_pass(cache, &copy), TEXCACHE_NO_PERMIT, "passes");
    TELLS(texcache_close(&cache), TEXCACHE_PASSES_LEFT, "end all passes");
    copy = more;
    SAYS(texcache_end(&more), TEXCACHE_OK);
    TELLS(texcache_get_tile(copy, a, 0, 0, 0, NULL), TEXCACHE_CLOSED, "has ended");
    TELLS(texcache_end(&more), TEXCACHE_BAD_ARGUMENT, "pass is NULL");
    TELLS(texcache_new_pass(NULL, &more), TEXCACHE_BAD_ARGUMENT, "cache is NULL");
    TELLS(texcache_this_thread(cache, NULL), TEXCACHE_BAD_ARGUMENT, "pass is NULL");
    fflush(stdout);
    pid_t child = fork();
    if (!child) {
        failures = 0;
        TELLS(texcache_get_tile(pass, a, 0, 0, 0, NULL), TEXCACHE_FORKED, "fork", "a cache of its own");
        TELLS(texcache_close(&cache), TEXCACHE_FORKED, "fork");
        fflush(stdout);
        _exit(failures != 0);
    }
    int status = 1;
    while (waitpid(child, &status, 0) < 0 && errno == EINTR) {}
    IS(status == 0);
}

/* ---- each thread has a text of its own, which stays while its calls succeed */

static void *fails_often(void *name)
{
    uint32_t file;
    char wanted[64];
    snprintf(wanted, sizeof wanted, "%s: ", (const char *)name);
    IS(*texcache_last_error() == 0);
    for (int i = 0; i < 2000; i++) {
        SAYS(texcache_find(cache, name, &file), TEXCACHE_NO_NAME);
        const char *text = texcache_last_error();
        SAYS(texcache_find(cache, "a.tif", &file), TEXCACHE_OK);
        IS(text == texcache_last_error() && !strncmp(text, wanted, strlen(wanted)));
    }
    return NULL;
}

static void threads(void)
{
    static char names[8][8];
    pthread_t ids[8];
    for (int i = 0; i < 8; i++) {
        snprintf(names[i], sizeof names[i], "no%d", i);
        if (pthread_create(&ids[i], NULL, fails_often, names[i])) exit(2);
    }
    for (int i = 0; i < 8; i++) pthread_join(ids[i], NULL);
}

int main(int count, char **words)
{
    texcache_options o = texcache_default_options();
    const image plain = {16, 16, 1, 0, 0, grey}, packed = {16, 16, 1, 0, 5, grey};
    char odd[256];
    if (count != 2) return 2;
    IS(*texcache_last_error() == 0);
    put_image(words[1], "a.tif", plain);
    put_image(words[1], "gone.tif", plain);
    put_image(words[1], "it's lzw.tif", packed);
    memset(odd, '\'', 255);
    odd[255] = 0;
    put_image(words[1], odd, packed);
    FILE *file = fopen(in(words[1], "short.tif"), "wb");
    if (!file || fclose(file)) return 2;
    opening(words[1]);
    o.passes = 3, o.missing_ms = 0;
    if (texcache_open(&cache, words[1], &o) || texcache_new_pass(cache, &pass)) return 2;
    files(words[1]);
    /* the longest text there is: a name of 255 quotes, which a shell needs five characters for each */
    texcache_info info;
    TELLS(texcache_get_info(pass, file_of(cache, odd), &info, NULL), TEXCACHE_BAD_FILE, odd, "What helps: tiffcp", "OUT.tif");
    numbers();
    tiles_and_passes();
    threads();
    IS(!strcmp(texcache_error_string(99), "unknown") && !strcmp(texcache_error_string(-1), "unknown"));
    SAYS(texcache_end(&pass), TEXCACHE_OK);
    SAYS(texcache_close(&cache), TEXCACHE_OK);
    printf("%d failed\n", failures);
    return failures != 0;
}
