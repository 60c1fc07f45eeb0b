/* What is said of a cache: statistics FOLDER [print], an empty folder that it may write to. The numbers are compared with
 * those of the calls of the system, which come through this program, and with those of known files. With `print` it
 * prints the JSON alone. */
#define _XOPEN_SOURCE 700
#include "images.h"
#include <fcntl.h>
#include <pthread.h>
#include <sys/stat.h>
#include <time.h>
#include <unistd.h>

enum { THREADS = 4, LOOKUPS = 1600, TEXT = 1 << 20 };

/* What went through the calls of the system, but for those of a report, which looks whether a file has strips. */
static __thread bool reports;
static uint64_t opens, reads, bytes, looks;
static texcache *cache;
static const char *folder;
static char text[TEXT], json[TEXT];

int __real_openat(int folder, const char *name, int flags, ...);
int __wrap_openat(int folder, const char *name, int flags, ...);
ssize_t __real_pread(int fd, void *to, size_t size, off_t at);
ssize_t __wrap_pread(int fd, void *to, size_t size, off_t at);
int __real_fstatat(int folder, const char *name, struct stat *seen, int flags);
int __wrap_fstatat(int folder, const char *name, struct stat *seen, int flags);

int __wrap_openat(int of, const char *name, int flags, ...)
{
    int fd = __real_openat(of, name, flags);
    if (fd >= 0 && !reports) __atomic_fetch_add(&opens, 1, __ATOMIC_RELAXED);
    return fd;
}

ssize_t __wrap_pread(int fd, void *to, size_t size, off_t at)
{
    ssize_t got = __real_pread(fd, to, size, at);
    __atomic_fetch_add(&reads, !reports, __ATOMIC_RELAXED);
    if (got > 0 && !reports) __atomic_fetch_add(&bytes, (uint64_t)got, __ATOMIC_RELAXED);
    return got;
}

int __wrap_fstatat(int of, const char *name, struct stat *seen, int flags)
{
    __atomic_fetch_add(&looks, 1, __ATOMIC_RELAXED);
    return __real_fstatat(of, name, seen, flags);
}

static unsigned sample(unsigned x, unsigned y, unsigned channel)
{
    return x ^ y ^ channel;
}

/* The number behind a key of the JSON, from a place on. */
static uint64_t number_at(const char *from, const char *key)
{
    char wanted[64];
    snprintf(wanted, sizeof wanted, "\"%s\": ", key);
    const char *at = from ? strstr(from, wanted) : NULL;
    if (!at) {
        printf("the JSON has no %s\n", key);
        failures++;
        return 0;
    }
    return strtoull(at + strlen(wanted), NULL, 10);
}

/* The JSON, and where the line of a file begins in it; NULL if it has none. */
static const char *report(const char *name)
{
    char wanted[600];
    reports = true;
    SAYS(texcache_statistics_json(cache, 2, json, sizeof json, NULL), TEXCACHE_OK);
    reports = false;
    snprintf(wanted, sizeof wanted, "\"name\": \"%s\"", name);
    return strstr(json, wanted);
}

static const char *remark_of(const char *name, const char *key)
{
    const char *at = report(name);
    char wanted[64];
    snprintf(wanted, sizeof wanted, "\"%s\": ", key);
    at = at ? strstr(at, wanted) : NULL;
    return at ? at + strlen(wanted) : "";
}

static bool begins(const char *of, const char *with)
{
    return !strncmp(of, with, strlen(with));
}

static void texels(texcache_pass *pass, const char *name, int count)
{
    texcache_texture_options o = texcache_default_texture_options(1);
    uint32_t file = file_of(cache, name);
    uint16_t out;
    o.filter = TEXCACHE_CLOSEST;
    for (int n = 0; n < count; n++) {
        double s = (double)((unsigned)n * 2654435761u >> 8 & 0xffff) / 65536, t = (double)((unsigned)n * 40503u & 0xffff) / 65536;
        SAYS(texcache_texture(pass, file, &o, s, t, &out, 1, NULL), TEXCACHE_OK);
    }
}

static void *looks_up(void *name)
{
    texcache_pass *pass;
    texcache_statistics own;
    SAYS(texcache_this_thread(cache, &pass), TEXCACHE_OK);
    for (int n = 0; n < 20; n++) {
        texels(pass, name, LOOKUPS / 20);
        if (n % 5 == 0) SAYS(texcache_statistics_text(cache, 1, NULL, 0, NULL), TEXCACHE_OK);
    }
    SAYS(texcache_stats(pass, &own), TEXCACHE_OK);
    IS(own.pass.needs == LOOKUPS);
    return NULL;
}

/* Threads that look up while another one asks: no call is refused, and at the end all is counted once. */
static void threads(void)
{
    pthread_t ids[THREADS];
    for (int round = 0; round < 2; round++) {
        for (int i = 0; i < THREADS; i++)
            if (pthread_create(&ids[i], NULL, looks_up, i % 2 ? "tiled.tif" : "stripped.tif")) exit(2);
        for (int n = 0; n < 60; n++) report("tiled.tif");
        for (int i = 0; i < THREADS; i++) pthread_join(ids[i], NULL);
        report("tiled.tif");
        IS(number_at(json, "lookups") == (uint64_t)(round + 1) * THREADS * LOOKUPS);
        IS(number_at(json, "needs") == (uint64_t)(round + 1) * THREADS * LOOKUPS);
        IS(number_at(json, "busy_passes") == 0 && number_at(json, "passes") == 0);
    }
    /* the memory of ended passes is used again, and their counts stay */
    for (int n = 0; n < 200; n++) {
        texcache_pass *pass;
        SAYS(texcache_new_pass(cache, &pass), TEXCACHE_OK);
        texels(pass, "tiled.tif", 10);
        SAYS(texcache_end(&pass), TEXCACHE_OK);
    }
    report("tiled.tif");
    IS(number_at(json, "lookups") == 2 * THREADS * LOOKUPS + 2000 && number_at(json, "needs") == 2 * THREADS * LOOKUPS + 2000);
}

/* What is read is counted as the calls of the system are, in all and by file. */
static void input(void)
{
    static const char *const keys[] = {"looks", "opens", "reads", "bytes"};
    const uint64_t wanted[] = {looks, opens, reads, bytes};
    report("tiled.tif");
    for (int i = 0; i < 4; i++) {
        uint64_t sum = 0;
        const char *at = strstr(json, "\"files\"");
        IS(number_at(json, keys[i]) == wanted[i]);
        while (at && (at = strstr(at, "\"name\""))) sum += number_at(at, keys[i]), at++;
        IS(sum == wanted[i]);
    }
}

/* Each byte of the tiles once; then all of them again. */
static void read_again(texcache_pass *pass)
{
    /* 512 by 512 in tiles of 64: 262144 bytes and a head of 512 + 256 */
    const uint32_t file = file_of(cache, "again.tif");
    texcache_region region = {0, 0, 0, 512, 512};
    uint16_t *out = malloc(sizeof *out * 512 * 512);
    SAYS(texcache_get_pixels(pass, file, &region, out, 512 * 512, NULL), TEXCACHE_OK);
    uint64_t first = number_at(report("again.tif"), "bytes"), again = number_at(report("again.tif"), "bytes_again");
    /* reads have at least 16384 bytes, so beside the tiles the head and parts of the first tiles are read */
    IS(first >= 262144 + 768 && again <= first - 262144);
    SAYS(texcache_invalidate(pass, file, true, NULL), TEXCACHE_OK);
    SAYS(texcache_get_pixels(pass, file, &region, out, 512 * 512, NULL), TEXCACHE_OK);
    uint64_t second = number_at(report("again.tif"), "bytes"), more = number_at(report("again.tif"), "bytes_again");
    IS(second == 2 * first && more - again >= 262144 - 4096 && more - again <= first + 4096);
    IS(number_at(report("again.tif"), "generations") == 1 && number_at(report("again.tif"), "opens") == 2);
    free(out);
}

/* A new generation has been read by nobody. */
static void replaced(texcache_pass *pass)
{
    const image other = {512, 512, 1, 128, 0, sample};
    const uint32_t file = file_of(cache, "again.tif");
    uint64_t again = number_at(report("again.tif"), "bytes_again");
    struct timespec pause = {0, 20000000};
    nanosleep(&pause, NULL);
    put_image(folder, "again.tif", other);
    texcache_tile tile;
    SAYS(texcache_invalidate(pass, file, false, NULL), TEXCACHE_OK);
    SAYS(texcache_get_tile(pass, file, 0, 300, 300, NULL), TEXCACHE_OK);
    SAYS(texcache_tile_at(pass, 0, &tile), TEXCACHE_OK);
    IS(tile.w == 128 && number_at(report("again.tif"), "generations") == 2);
    IS(number_at(report("again.tif"), "bytes_again") == again && number_at(json, "held_tiles") == 1);
    SAYS(texcache_release_tile(pass, 0), TEXCACHE_OK);
}

static void remarks(texcache_pass *pass)
{
    texcache_info info;
    uint32_t packed = file_of(cache, "packed.tif"), gone = file_of(cache, "gone.tif");
    for (int n = 0; n < 3; n++) SAYS(texcache_get_info(pass, packed, &info, NULL), TEXCACHE_BAD_FILE);
    SAYS(texcache_get_info(pass, gone, &info, NULL), TEXCACHE_READ_FAULT);
    SAYS(texcache_get_info(pass, file_of(cache, "dot.tif"), &info, NULL), TEXCACHE_OK);
    SAYS(texcache_get_info(pass, file_of(cache, "a \"b\"\\\n\xff\xc3\xa9\xe2\x82.tif"), &info, NULL), TEXCACHE_OK);
    IS(begins(remark_of("stripped.tif", "remark"), "\"stripped, one level: texmake FOLDER stripped.tif\""));
    IS(begins(remark_of("tiled.tif", "remark"), "\"one level: texmake FOLDER tiled.tif\""));
    IS(begins(remark_of("dot.tif", "remark"), "null") && begins(remark_of("dot.tif", "error"), "null"));
    IS(begins(remark_of("packed.tif", "error"), "\"the file is not accepted: Compression is 8, Deflate (zip). What helps: "));
    IS(number_at(report("packed.tif"), "errors") == 3 && number_at(report("gone.tif"), "errors") == 1);
    IS(report("a \\\"b\\\"\\\\\\u000a\\ufffd\xc3\xa9\\ufffd\\ufffd.tif") != NULL);
    IS(!report("unused.tif"));
    IS(number_at(report("tiled.tif"), "stored") == 1 && number_at(report("tiled.tif"), "levels") == 9);
    IS(begins(remark_of("stripped.tif", "form"), "\"strips\"") && begins(remark_of("tiled.tif", "form"), "\"tiles\""));
    IS(number_at(report("wide.tif"), "row_reads") > 0 && number_at(report("tiled.tif"), "row_reads") == 0);
    IS(number_at(json, "errors") == 4);
}

/* The text, its sizes, and bad use. */
static void texts(void)
{
    size_t needed = 0, again = 0, short_one = 0;
    char small[100];
    SAYS(texcache_statistics_text(cache, 2, NULL, 0, &needed), TEXCACHE_OK);
    SAYS(texcache_statistics_text(cache, 2, text, sizeof text, &again), TEXCACHE_OK);
    IS(again == strlen(text) + 1 && needed <= again + 20 && again <= needed + 20);
    IS(begins(text, "texcache ") && strstr(text, "bytes read") && strstr(text, "stripped, one level: texmake FOLDER stripped.tif"));
    /* the files are sorted by their bytes */
    const char *at = strstr(text, "  file\n");
    uint64_t before = UINT64_MAX, opened, read_times, size;
    for (at = at ? strchr(at, '\n') + 1 : ""; *at; at = strchr(at, '\n') + 1) {
        IS(sscanf(at, "%lu %lu %lu", &opened, &read_times, &size) == 3 && size <= before);
        before = size;
    }
    SAYS(texcache_statistics_text(cache, 1, text, sizeof text, &short_one), TEXCACHE_OK);
    IS(short_one < again && !strstr(text, "tiled.tif"));
    memset(small, 'x', sizeof small);
    SAYS(texcache_statistics_text(cache, 2, small, 50, &needed), TEXCACHE_SMALL_BUFFER);
    IS(strlen(small) == 49 && small[50] == 'x' && needed > 1000 && strstr(texcache_last_error(), "room for 50 bytes"));
    SAYS(texcache_statistics_text(cache, 1, small, 1, NULL), TEXCACHE_SMALL_BUFFER);
    IS(!*small);
    SAYS(texcache_statistics_text(cache, 1, NULL, 9, &needed), TEXCACHE_BAD_ARGUMENT);
    SAYS(texcache_statistics_text(NULL, 1, small, 9, &needed), TEXCACHE_BAD_ARGUMENT);
    SAYS(texcache_statistics_json(NULL, 1, NULL, 0, &needed), TEXCACHE_BAD_ARGUMENT);
    IS(needed == 0);
}

int main(int count, char **words)
{
    static const struct { const char *name; image image; } images[] = {
        {"tiled.tif", {256, 256, 1, 64, 0, sample}}, {"stripped.tif", {256, 256, 3, 0, 0, sample}},
        {"again.tif", {512, 512, 1, 64, 0, sample}}, {"packed.tif", {16, 16, 1, 0, 8, sample}},
        {"gone.tif", {16, 16, 1, 0, 0, sample}}, {"dot.tif", {1, 1, 1, 0, 0, sample}},
        {"wide.tif", {8000, 70, 1, 0, 0, sample}}, {"unused.tif", {16, 16, 1, 0, 0, sample}}, {"a \"b\"\\\n\xff\xc3\xa9\xe2\x82.tif", {16, 16, 1, 0, 0, sample}}};
    texcache_options o = texcache_default_options();
    texcache_pass *pass;
    char gone[4096];
    if (count < 2) return 2;
    folder = words[1];
    for (size_t i = 0; i < sizeof images / sizeof *images; i++) put_image(folder, images[i].name, images[i].image);
    o.budget = 200000, o.shards = 1;
    if (texcache_open(&cache, folder, &o) || texcache_find_all(cache, ".", NULL)) return 2;
    snprintf(gone, sizeof gone, "%s/gone.tif", folder);
    unlink(gone);
    opens = reads = bytes = looks = 0;
    SAYS(texcache_statistics_json(cache, 2, json, sizeof json, NULL), TEXCACHE_OK);
    IS(number_at(json, "lookups") == 0 && number_at(json, "used_files") == 0 && strstr(json, "\"files\": []}"));
    threads();
    input();
    if (texcache_this_thread(cache, &pass)) return 2;
    texels(pass, "wide.tif", 1);
    read_again(pass);
    replaced(pass);
    remarks(pass);
    input();
    texts();
    report("tiled.tif");
    IS(number_at(json, "tile_bytes") <= o.budget && number_at(json, "budget") == o.budget);
    IS(number_at(json, "tiles") > 0 && number_at(json, "peak_process_bytes") > 1000000);
    if (count > 2) fputs(json, stdout);
    SAYS(texcache_close(&cache), TEXCACHE_OK);
    if (count == 2) printf("%d failed\n", failures);
    return failures != 0;
}
