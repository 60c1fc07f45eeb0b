/* Open files: descriptors FOLDER, an empty folder that it may write to. With 24 descriptors 8 threads read 64 files; the
 * idle file that was used longest ago is closed first; force opens a file anew; and a check of all files goes on past
 * those that fail. */
#define _XOPEN_SOURCE 700
#include "texcache_inside.h"
#include <fcntl.h>
#include <stdio.h>
#include <stdlib.h>
#include <string.h>
#include <sys/resource.h>
#include <sys/stat.h>
#include <unistd.h>

enum { FILES = 64, SIDE = 128, THREADS = 8, LIMIT = 24 };

static int failures;
static const char *folder;
static texcache *cache;

#define IS(holds)                                                   \
    do {                                                            \
        if (!(holds)) {                                             \
            printf("line %d: not so: %s\n", __LINE__, #holds);      \
            __atomic_fetch_add(&failures, 1, __ATOMIC_RELAXED);     \
        }                                                           \
    } while (0)

static void path_of(char *to, size_t room, int number)
{
    snprintf(to, room, "%s/f%02d.tif", folder, number);
}

/* A grey picture of 8 bits in strips of one row, with one value. Another one takes its place by a rename, or with
 * `is_same` with the same length and time, so that nothing shows the change. */
static void put(int number, int value, bool is_same)
{
    static const int tags[8][3] = {{256, 3, SIDE}, {257, 3, SIDE}, {258, 3, 8}, {259, 3, 1}, {262, 3, 1},
                                   {273, 4, 110},  {278, 3, SIDE}, {279, 4, SIDE * SIDE}};
    static uint8_t bytes[110 + SIDE * SIDE];
    char name[4096], part[4096];
    struct stat before;
    memset(bytes, 0, 110);
    memcpy(bytes, "II*\0\10\0\0\0\10", 9);
    for (int i = 0; i < 8; i++) {
        uint8_t *at = bytes + 10 + 12 * i;
        at[0] = tags[i][0] & 255, at[1] = (uint8_t)(tags[i][0] >> 8), at[2] = (uint8_t)tags[i][1], at[4] = 1;
        for (int k = 0; k < 4; k++) at[8 + k] = (uint8_t)(tags[i][2] >> 8 * k);
    }
    memset(bytes + 110, value, SIDE * SIDE);
    path_of(name, sizeof name, number);
    snprintf(part, sizeof part, "%s/part", folder);
    FILE *to = fopen(part, "wb");
    if (!to || fwrite(bytes, 1, sizeof bytes, to) != sizeof bytes || fclose(to)) exit(2);
    if (is_same) {
        if (stat(name, &before)) exit(2);
        struct timespec times[2] = {before.st_mtim, before.st_mtim};
        if (utimensat(AT_FDCWD, part, times, 0)) exit(2);
    }
    if (rename(part, name)) exit(2);
}

/* The value of a file, read anew: no tile of it is kept. */
static int value_of(texcache_pass *pass, uint32_t file, texcache_answer *a)
{
    texcache_texture_options o = texcache_default_texture_options(1);
    uint16_t out = 0;
    int status = texcache_texture(pass, file, &o, 0.5, 0.5, &out, 1, a);
    if (status) printf("file %u: %s\n", file, texcache_error_string(status));
    return status ? -1 : out / 257;
}

static void *reads_all(void *given)
{
    texcache_pass *pass;
    texcache_answer a;
    unsigned first = (unsigned)(uintptr_t)given;
    if (texcache_this_thread(cache, &pass)) exit(2);
    for (unsigned i = 0; i < 4 * FILES; i++) {
        uint32_t file = (first + 7 * i) % FILES;
        IS(value_of(pass, file, &a) == (int)file);
    }
    return NULL;
}

static uint64_t opens(texcache_pass *pass)
{
    texcache_statistics stats;
    if (texcache_stats(pass, &stats)) exit(2);
    return stats.opens;
}

static void open_cache(uint32_t handles)
{
    texcache_options o = texcache_default_options();
    o.handles = handles;
    o.budget = 0;
    if (texcache_open(&cache, folder, &o) || texcache_find_all(cache, ".", NULL)) exit(2);
}

/* Fewer descriptors than files, and then as good as none: each file is answered. */
static void few_descriptors(void)
{
    struct rlimit all, few;
    pthread_t ids[THREADS];
    int used[LIMIT], count = 0;
    getrlimit(RLIMIT_NOFILE, &all);
    few = all;
    few.rlim_cur = LIMIT;
    setrlimit(RLIMIT_NOFILE, &few);
    open_cache(100);
    IS(cache->most_idle == LIMIT / 2);
    /* others have all but three, so files are closed before their number is reached */
    while (count < LIMIT && (used[count] = open("/dev/null", O_RDONLY)) >= 0) count++;
    for (int i = 0; i < 3 && count > 0; i++) close(used[--count]);
    for (uintptr_t i = 0; i < THREADS; i++) pthread_create(&ids[i], NULL, reads_all, (void *)(8 * i));
    for (int i = 0; i < THREADS; i++) pthread_join(ids[i], NULL);
    IS(cache->idle <= 3);
    while (count > 0) close(used[--count]);
    for (uintptr_t i = 0; i < THREADS; i++) pthread_create(&ids[i], NULL, reads_all, (void *)(8 * i));
    for (int i = 0; i < THREADS; i++) pthread_join(ids[i], NULL);
    IS(cache->idle <= LIMIT / 2);
    IS(texcache_close(&cache) == TEXCACHE_OK);
    setrlimit(RLIMIT_NOFILE, &all);
}

/* A file that is used again and again stays open, beside many that are used once each. */
static void least_recently_used(void)
{
    texcache_pass *pass;
    texcache_answer a;
    open_cache(4);
    if (texcache_new_pass(cache, &pass)) exit(2);
    IS(value_of(pass, 0, &a) == 0);
    uint64_t before = opens(pass);
    for (uint32_t file = 1; file < FILES; file++) {
        IS(value_of(pass, file, &a) == (int)file);
        IS(value_of(pass, 0, &a) == 0);
        IS(cache->files[0].open != NULL && cache->idle <= 4);
    }
    IS(opens(pass) - before == FILES - 1);
    /* the latest four are open */
    IS(cache->files[FILES - 1].open && cache->files[FILES - 2].open && cache->files[FILES - 3].open);
    IS(!cache->files[FILES - 4].open);
    texcache_end(&pass);
    IS(texcache_close(&cache) == TEXCACHE_OK);
}

/* A file of the same length and time takes the place of another, which is a new version. With force the old one is closed
 * in any case. */
static void force(void)
{
    texcache_pass *pass;
    texcache_answer a;
    open_cache(100);
    if (texcache_new_pass(cache, &pass)) exit(2);
    IS(value_of(pass, 5, &a) == 5);
    put(5, 105, true);
    IS(texcache_invalidate(pass, 5, false, &a) == TEXCACHE_OK && a.generation == 2);
    IS(value_of(pass, 5, &a) == 105 && a.generation == 2);
    IS(cache->files[5].open != NULL);
    IS(texcache_invalidate(pass, 5, true, &a) == TEXCACHE_OK && a.generation == 2);
    IS(!cache->files[5].open);
    IS(value_of(pass, 5, &a) == 105 && a.generation == 2);
    IS(texcache_invalidate(pass, FILES, true, &a) == TEXCACHE_NO_FILE);
    put(5, 5, false);
    texcache_end(&pass);
    IS(texcache_close(&cache) == TEXCACHE_OK);
}

/* Two files are gone; those before, between and behind them are checked all the same. */
static void goes_on(void)
{
    texcache_pass *pass;
    texcache_answer a;
    char path[4096];
    struct timespec pause = {0, 20000000};
    open_cache(100);
    if (texcache_new_pass(cache, &pass)) exit(2);
    for (uint32_t file = 0; file < 20; file++) IS(value_of(pass, file, &a) == (int)file);
    IS(texcache_invalidate_all(pass, &a) == TEXCACHE_OK && a.part == 0 && a.value == 0);
    nanosleep(&pause, NULL);
    put(2, 102, false), put(12, 112, false), put(19, 119, false);
    for (int file = 7; file < 18; file += 9) {
        path_of(path, sizeof path, file);
        unlink(path);
    }
    memset(&a, 255, sizeof a);
    IS(texcache_invalidate_all(pass, &a) == TEXCACHE_READ_FAULT);
    IS(a.part == 7 && a.value == 2 && a.generation == 0);
    IS(value_of(pass, 2, &a) == 102 && value_of(pass, 12, &a) == 112 && value_of(pass, 19, &a) == 119);
    IS(value_of(pass, 3, &a) == 3 && a.generation == 1);
    /* files that nobody used are not known, and so not checked */
    IS(cache->files[20].known.generation == 0);
    texcache_end(&pass);
    IS(texcache_close(&cache) == TEXCACHE_OK);
}

int main(int count, char **words)
{
    if (count != 2) return 2;
    folder = words[1];
    for (int i = 0; i < FILES; i++) put(i, i, false);
    few_descriptors();
    least_recently_used();
    force();
    goes_on();
    printf("%d failed\n", failures);
    return failures != 0;
}
