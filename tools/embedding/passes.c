/* Passes, threads and forks: passes FOLDER, an empty folder that it may write to. A thread finds its pass again, and the
 * pass ends with it; ended passes, passes in use, and caches and passes of a parent process are refused; new passes
 * count from zero; every call fills its answer; and a thread that waits sleeps. */
#define _XOPEN_SOURCE 700
#include "texcache_inside.h"
#include <errno.h>
#include <stdio.h>
#include <stdlib.h>
#include <string.h>
#include <sys/wait.h>
#include <time.h>
#include <unistd.h>

static int failures;
static texcache *cache;
static uint32_t file;

#define IS(holds)                                                   \
    do {                                                            \
        if (!(holds)) {                                             \
            printf("line %d: not so: %s\n", __LINE__, #holds);      \
            __atomic_fetch_add(&failures, 1, __ATOMIC_RELAXED);     \
        }                                                           \
    } while (0)

#define SAYS(call, wanted)                                                                                       \
    do {                                                                                                         \
        int said = (int)(call);                                                                                  \
        if (said != (wanted)) {                                                                                  \
            printf("line %d: %s is '%s', wanted '%s'\n", __LINE__, #call, texcache_error_string(said),            \
                   texcache_error_string(wanted));                                                               \
            __atomic_fetch_add(&failures, 1, __ATOMIC_RELAXED);                                                  \
        }                                                                                                        \
    } while (0)

/* A grey picture of 8 by 8 samples of 8 bits with the value 7, in one strip. */
static void put(const char *folder, const char *name)
{
    static const uint16_t entries[8][3] = {{256, 3, 8},  {257, 3, 8},   {258, 3, 8}, {259, 3, 1},
                                           {262, 3, 1},  {273, 4, 110}, {278, 3, 8}, {279, 4, 64}};
    uint8_t bytes[174] = {'I', 'I', '*', 0, 8, 0, 0, 0, 8};
    char path[4096];
    for (int i = 0; i < 8; i++) {
        uint8_t *at = bytes + 10 + 12 * i;
        at[0] = entries[i][0] & 255, at[1] = (uint8_t)(entries[i][0] >> 8), at[2] = (uint8_t)entries[i][1], at[4] = 1;
        at[8] = entries[i][2] & 255;
    }
    memset(bytes + 110, 7, 64);
    snprintf(path, sizeof path, "%s/%s", folder, name);
    FILE *to = fopen(path, "wb");
    if (!to || fwrite(bytes, 1, sizeof bytes, to) != sizeof bytes || fclose(to)) exit(2);
}

/* A lookup in a pass, and whether its values are right. */
static int looks_up(texcache_pass *pass)
{
    texcache_texture_options o = texcache_default_texture_options(1);
    uint16_t out = 0;
    int status = texcache_texture(pass, file, &o, 0.5, 0.5, &out, 1, NULL);
    IS(status || out == 7 * 257);
    return status;
}

static bool is_blank(const texcache_answer *a)
{
    static const texcache_answer none;
    return a->generation == 0 && a->newer == 0 && a->detail == 0 && a->part == 0 && a->value == none.value && a->channels == 0;
}

/* ---- the pass of a thread */

static void *finds_its_pass(void *seen)
{
    texcache_pass *pass = NULL, *again = NULL;
    SAYS(texcache_this_thread(cache, &pass), TEXCACHE_OK);
    SAYS(texcache_this_thread(cache, &again), TEXCACHE_OK);
    IS(pass && pass == again);
    SAYS(looks_up(pass), TEXCACHE_OK);
    SAYS(texcache_get_tile(pass, file, 0, 0, 0, NULL), TEXCACHE_OK);
    if (seen) *(texcache_pass **)seen = pass;
    return NULL;
}

static void *has_no_pass(void *unused)
{
    texcache_pass *pass = (texcache_pass *)&pass;
    (void)unused;
    SAYS(texcache_this_thread(cache, &pass), TEXCACHE_NO_PERMIT);
    IS(!pass);
    return NULL;
}

static void in_a_thread(void *(*work)(void *), void *given)
{
    pthread_t id;
    if (pthread_create(&id, NULL, work, given)) exit(2);
    pthread_join(id, NULL);
}

static void *ends_it(void *pass)
{
    texcache_pass *copy = pass;
    SAYS(texcache_end(&copy), TEXCACHE_OTHER_THREAD);
    IS(copy == pass);
    return NULL;
}

/* The cache has two passes for others: more threads than that, one after another, find one each. */
static void threads(void)
{
    texcache_pass *own, *ended = NULL, *made = NULL;
    for (int i = 0; i < 200; i++) in_a_thread(finds_its_pass, NULL);
    in_a_thread(finds_its_pass, &ended);
    SAYS(looks_up(ended), TEXCACHE_CLOSED);
    SAYS(texcache_this_thread(cache, &own), TEXCACHE_OK);
    SAYS(texcache_new_pass(cache, &made), TEXCACHE_OK);
    IS(own != made);
    in_a_thread(has_no_pass, NULL);
    in_a_thread(ends_it, own);
    /* a thread may end its pass itself, and then finds another one */
    ended = own;
    SAYS(texcache_end(&own), TEXCACHE_OK);
    IS(!own);
    SAYS(looks_up(ended), TEXCACHE_CLOSED);
    SAYS(texcache_this_thread(cache, &own), TEXCACHE_OK);
    IS(own != ended);
    SAYS(looks_up(own), TEXCACHE_OK);
    SAYS(texcache_close(&cache), TEXCACHE_PASSES_LEFT);
    SAYS(texcache_end(&made), TEXCACHE_OK);
}

/* ---- ended passes */

/* Every call in a pass that cannot be used is refused by the same name, fills its answer and changes nothing else. */
static void refuses(texcache_pass *pass, int status)
{
    texcache_texture_options o = texcache_default_texture_options(1);
    texcache_lookup r = texcache_lookup_at(0, 0, 0, 1);
    texcache_region region = {0, 0, 0, 1, 1};
    texcache_coordinates at = {&o.lod, &o.lod, NULL, NULL, NULL, NULL, 1};
    texcache_answer a[14];
    float real = 77;
    texcache_results to = {sizeof to, TEXCACHE_FLOAT, 1, &real, NULL, NULL};
    texcache_info info;
    texcache_tile tile;
    texcache_statistics stats;
    texcache_shard shard;
    uint16_t out = 77;
    size_t done = 77, i = 0;
    memset(a, 255, sizeof a);
    SAYS(texcache_get_info(pass, file, &info, &a[i++]), status);
    SAYS(texcache_texture(pass, file, &o, 0, 0, &out, 1, &a[i++]), status);
    SAYS(texcache_texture_footprint(pass, file, &o, 0, 0, 0, 0, 0, 0, &out, 1, &a[i++]), status);
    SAYS(texcache_texture_many(pass, file, &o, &at, 1, &out, 1, &done, &a[i++]), status);
    SAYS(texcache_texture_float(pass, file, &o, 0, 0, &real, 1, &a[i++]), status);
    SAYS(texcache_texture_footprint_float(pass, file, &o, 0, 0, 0, 0, 0, 0, &real, 1, &a[i++]), status);
    SAYS(texcache_texture_results(pass, file, &o, &at, 1, &to, &done, &a[i++]), status);
    SAYS(texcache_texture_fixed(pass, file, &r, &out, 1, &a[i++]), status);
    SAYS(texcache_texture_d_fixed(pass, file, &r, &out, 1, &a[i++]), status);
    SAYS(texcache_texture_local_fixed(pass, file, &r, &out, 1, &a[i++]), status);
    SAYS(texcache_get_pixels(pass, file, &region, &out, 1, &a[i++]), status);
    SAYS(texcache_get_tile(pass, file, 0, 0, 0, &a[i++]), status);
    SAYS(texcache_invalidate(pass, file, true, &a[i++]), status);
    SAYS(texcache_invalidate_all(pass, &a[i++]), status);
    while (i > 0) IS(is_blank(&a[--i]));
    SAYS(texcache_tile_at(pass, 0, &tile), status);
    SAYS(texcache_tile_texels(pass, 0, &out, 1), status);
    SAYS(texcache_release_tile(pass, 0), status);
    SAYS(texcache_stats(pass, &stats), status);
    SAYS(texcache_shard_stats(pass, 0, &shard), status);
    SAYS(texcache_end(&pass), status);
    IS(out == 77 && real == 77 && done == 0);
}

/* NULL in place of each argument. */
static void null_arguments(texcache_pass *pass)
{
    texcache_texture_options o = texcache_default_texture_options(1);
    texcache_lookup r = texcache_lookup_at(0, 0, 0, 1);
    texcache_region region = {0, 0, 0, 1, 1};
    texcache_answer a[8];
    uint16_t out;
    size_t i = 0;
    memset(a, 255, sizeof a);
    SAYS(texcache_get_info(pass, file, NULL, &a[i++]), TEXCACHE_BAD_ARGUMENT);
    SAYS(texcache_texture(pass, file, NULL, 0, 0, &out, 1, &a[i++]), TEXCACHE_BAD_ARGUMENT);
    SAYS(texcache_texture(pass, file, &o, 0, 0, NULL, 1, &a[i++]), TEXCACHE_BAD_ARGUMENT);
    SAYS(texcache_texture_many(pass, file, &o, NULL, 1, &out, 1, NULL, &a[i++]), TEXCACHE_BAD_ARGUMENT);
    SAYS(texcache_texture_fixed(pass, file, NULL, &out, 1, &a[i++]), TEXCACHE_BAD_ARGUMENT);
    SAYS(texcache_texture_d_fixed(pass, file, &r, NULL, 1, &a[i++]), TEXCACHE_BAD_ARGUMENT);
    SAYS(texcache_texture_local_fixed(pass, file, NULL, &out, 1, &a[i++]), TEXCACHE_BAD_ARGUMENT);
    SAYS(texcache_get_pixels(pass, file, NULL, &out, 1, &a[i++]), TEXCACHE_BAD_ARGUMENT);
    while (i > 0) IS(is_blank(&a[--i]));
    SAYS(texcache_get_pixels(pass, file, &region, NULL, 1, a), TEXCACHE_SMALL_BUFFER);
    IS(a[0].value == 1 && a[0].channels == 1);
    SAYS(texcache_tile_at(pass, 0, NULL), TEXCACHE_BAD_ARGUMENT);
    SAYS(texcache_stats(pass, NULL), TEXCACHE_BAD_ARGUMENT);
    SAYS(texcache_shard_stats(pass, 0, NULL), TEXCACHE_BAD_ARGUMENT);
    SAYS(texcache_new_pass(NULL, &pass), TEXCACHE_BAD_ARGUMENT);
    SAYS(texcache_new_pass(cache, NULL), TEXCACHE_BAD_ARGUMENT);
    SAYS(texcache_this_thread(NULL, &pass), TEXCACHE_BAD_ARGUMENT);
    SAYS(texcache_this_thread(cache, NULL), TEXCACHE_BAD_ARGUMENT);
    SAYS(texcache_end(NULL), TEXCACHE_BAD_ARGUMENT);
    SAYS(texcache_close(NULL), TEXCACHE_BAD_ARGUMENT);
    SAYS(texcache_find(cache, NULL, &file), TEXCACHE_BAD_ARGUMENT);
}

static void ended_passes(void)
{
    texcache_pass *pass, *copy, *next;
    texcache_statistics stats;
    refuses(NULL, TEXCACHE_BAD_ARGUMENT);
    SAYS(texcache_new_pass(cache, &pass), TEXCACHE_OK);
    null_arguments(pass);
    SAYS(looks_up(pass), TEXCACHE_OK);
    pass->state = TEXC_USED;
    refuses(pass, TEXCACHE_IN_USE);
    pass->state = TEXC_FREE;
    copy = pass;
    SAYS(texcache_end(&pass), TEXCACHE_OK);
    IS(!pass);
    refuses(copy, TEXCACHE_CLOSED);
    /* the ended one stays ended while others are made and end, and these count from zero */
    for (int i = 0; i < 50; i++) {
        SAYS(texcache_new_pass(cache, &next), TEXCACHE_OK);
        IS(next != copy);
        SAYS(texcache_stats(next, &stats), TEXCACHE_OK);
        IS(stats.pass.needs == 0 && stats.pass.hits == 0 && stats.pass.apart == 0 && stats.pass.holds == 0);
        SAYS(looks_up(next), TEXCACHE_OK);
        SAYS(texcache_stats(next, &stats), TEXCACHE_OK);
        IS(stats.pass.needs > 0 && stats.pass.needs < 5);
        SAYS(looks_up(copy), TEXCACHE_CLOSED);
        SAYS(texcache_end(&next), TEXCACHE_OK);
    }
    refuses(copy, TEXCACHE_CLOSED);
    /* memory of ended passes is used again */
    for (int i = 0; i < 1000; i++) {
        SAYS(texcache_new_pass(cache, &next), TEXCACHE_OK);
        SAYS(texcache_end(&next), TEXCACHE_OK);
    }
    IS(cache->spent_count < 100);
}

/* ---- two threads in one pass */

static void *looks_up_often(void *pass)
{
    long refused = 0;
    for (int i = 0; i < 20000; i++) {
        int status = looks_up(pass);
        IS(status == TEXCACHE_OK || status == TEXCACHE_IN_USE);
        refused += status != TEXCACHE_OK;
    }
    return (void *)refused;
}

static void two_in_one_pass(void)
{
    texcache_pass *pass;
    pthread_t ids[4];
    SAYS(texcache_new_pass(cache, &pass), TEXCACHE_OK);
    for (int i = 0; i < 4; i++) pthread_create(&ids[i], NULL, looks_up_often, pass);
    for (int i = 0; i < 4; i++) pthread_join(ids[i], NULL);
    SAYS(texcache_end(&pass), TEXCACHE_OK);
}

/* ---- a cache that is closed while another thread looks up */

static void *looks_up_long(void *given)
{
    enum { COUNT = 400000 };
    double *numbers = calloc(COUNT, sizeof *numbers);
    uint16_t *out = calloc(COUNT, sizeof *out);
    texcache_texture_options o = texcache_default_texture_options(1);
    texcache_coordinates at = {numbers, numbers, NULL, NULL, NULL, NULL, 1};
    texcache_pass *pass;
    SAYS(texcache_this_thread(cache, &pass), TEXCACHE_OK);
    __atomic_store_n((texcache_pass **)given, pass, __ATOMIC_RELEASE);
    SAYS(texcache_texture_many(pass, file, &o, &at, COUNT, out, COUNT, NULL, NULL), TEXCACHE_OK);
    free(numbers);
    free(out);
    return NULL;
}

static void close_under_a_call(void)
{
    texcache_pass *pass = NULL, *own;
    pthread_t id;
    SAYS(texcache_this_thread(cache, &own), TEXCACHE_OK);
    if (pthread_create(&id, NULL, looks_up_long, &pass)) exit(2);
    while (!__atomic_load_n(&pass, __ATOMIC_ACQUIRE) || !__atomic_load_n(&pass->lookups, __ATOMIC_RELAXED)) {}
    SAYS(texcache_close(&cache), TEXCACHE_PASSES_LEFT);
    SAYS(looks_up(own), TEXCACHE_OK);
    pthread_join(id, NULL);
}

/* ---- waiting */

static double seconds(clockid_t clock)
{
    struct timespec at;
    clock_gettime(clock, &at);
    return (double)at.tv_sec + (double)at.tv_nsec / 1e9;
}

/* A thread that waits sleeps, up to a millisecond each time, and gives up. */
static void waits(void)
{
    unsigned tries = 0;
    double wall = seconds(CLOCK_MONOTONIC), used = seconds(CLOCK_THREAD_CPUTIME_ID);
    while (texc_pauses(&tries, 400)) {}
    wall = seconds(CLOCK_MONOTONIC) - wall;
    used = seconds(CLOCK_THREAD_CPUTIME_ID) - used;
    IS(tries == 401);
    IS(wall > 0.3 && used < wall / 4);
}

/* ---- a forked child */

static int in_the_child(const char *folder, texcache_pass *pass, texcache_pass *own)
{
    texcache *copy = cache, *other;
    uint32_t number;
    failures = 0;
    refuses(pass, TEXCACHE_FORKED);
    refuses(own, TEXCACHE_FORKED);
    SAYS(texcache_new_pass(cache, &pass), TEXCACHE_FORKED);
    SAYS(texcache_this_thread(cache, &pass), TEXCACHE_FORKED);
    SAYS(texcache_find(cache, "a.tif", &number), TEXCACHE_FORKED);
    SAYS(texcache_close(&copy), TEXCACHE_FORKED);
    IS(copy == cache);
    /* a cache of its own works */
    SAYS(texcache_open(&other, folder, NULL), TEXCACHE_OK);
    SAYS(texcache_this_thread(other, &own), TEXCACHE_OK);
    SAYS(texcache_find(other, "a.tif", &file), TEXCACHE_OK);
    SAYS(looks_up(own), TEXCACHE_OK);
    SAYS(texcache_close(&other), TEXCACHE_OK);
    return failures != 0;
}

static void fork_it(const char *folder)
{
    texcache_pass *pass, *own;
    int status = 0;
    SAYS(texcache_new_pass(cache, &pass), TEXCACHE_OK);
    SAYS(texcache_this_thread(cache, &own), TEXCACHE_OK);
    fflush(stdout);
    pid_t child = fork();
    if (child < 0) exit(2);
    if (!child) {
        status = in_the_child(folder, pass, own);
        fflush(stdout);
        _exit(status);
    }
    while (waitpid(child, &status, 0) < 0 && errno == EINTR) {}
    IS(WIFEXITED(status) && WEXITSTATUS(status) == 0);
    SAYS(looks_up(pass), TEXCACHE_OK);
    SAYS(looks_up(own), TEXCACHE_OK);
    SAYS(texcache_end(&pass), TEXCACHE_OK);
}

int main(int count, char **words)
{
    texcache_options o = texcache_default_options();
    if (count != 2) return 2;
    put(words[1], "a.tif");
    o.passes = 3;
    if (texcache_open(&cache, words[1], &o) || texcache_find(cache, "a.tif", &file)) return 2;
    threads();
    ended_passes();
    two_in_one_pass();
    close_under_a_call();
    waits();
    fork_it(words[1]);
    /* the main thread's own pass ends with the cache */
    SAYS(texcache_close(&cache), TEXCACHE_OK);
    IS(!cache);
    SAYS(texcache_close(&cache), TEXCACHE_BAD_ARGUMENT);
    printf("%d failed\n", failures);
    return failures != 0;
}
