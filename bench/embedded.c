/* A warm lookup through texcache.h: embedded FOLDER NAME THREADS LOOKUPS KIND, bilinear, three channels, in scan order
 * within one cell. KIND is many (64 in a call), single or fixed (in 1/65536). Prints nanoseconds a lookup, of the
 * whole time of all threads side by side. */
#include "texcache.h"
#include <pthread.h>
#include <stdio.h>
#include <stdlib.h>
#include <string.h>
#include <time.h>

static texcache *cache;
static uint32_t file;
static long lookups;
static const char *kind;
static pthread_barrier_t ready;

static double now(void)
{
    struct timespec at;
    clock_gettime(CLOCK_MONOTONIC, &at);
    return at.tv_sec * 1e9 + at.tv_nsec;
}

enum { TOGETHER = 64 };

static double place(long n) { return (4000 + (double)(n & 1023)) / 65536; }

/* The lookups, and the sum of their values. */
static int look_up(texcache_pass *pass, uint64_t *total)
{
    texcache_lookup r = texcache_lookup_at(4000, 4000, 0, 3);
    texcache_texture_options options = texcache_default_texture_options(3);
    uint16_t values[3 * TOGETHER];
    double s[TOGETHER], t[TOGETHER];
    texcache_coordinates at = {s, t, NULL, NULL, NULL, NULL, 1};
    int refused = 0;
    if (!strcmp(kind, "fixed")) {
        for (long i = 0; i < lookups; i++) {
            r.s = 4000 + (int32_t)(i & 1023);
            r.t = 4000 + (int32_t)(i >> 10 & 1023);
            refused |= texcache_texture_fixed(pass, file, &r, values, 3, NULL);
            *total += values[0] + values[1] + values[2];
        }
    } else if (!strcmp(kind, "single")) {
        for (long i = 0; i < lookups; i++) {
            refused |= texcache_texture(pass, file, &options, place(i), place(i >> 10), values, 3, NULL);
            *total += values[0] + values[1] + values[2];
        }
    } else {
        for (long i = 0; i < lookups; i += TOGETHER) {
            for (int k = 0; k < TOGETHER; k++) s[k] = place(i + k), t[k] = place((i + k) >> 10);
            refused |= texcache_texture_many(pass, file, &options, &at, TOGETHER, values, 3 * TOGETHER, NULL, NULL);
            for (int k = 0; k < 3 * TOGETHER; k++) *total += values[k];
        }
    }
    return refused;
}

static void *work(void *sum)
{
    texcache_pass *pass;
    texcache_lookup r = texcache_lookup_at(4000, 4000, 0, 3);
    uint16_t rgb[3];
    uint64_t total = 0;
    int refused = texcache_new_pass(cache, &pass);
    if (!refused) refused = texcache_texture_fixed(pass, file, &r, rgb, 3, NULL);
    pthread_barrier_wait(&ready);
    if (!refused) refused = look_up(pass, &total);
    if (refused) {
        fprintf(stderr, "embedded: %s\n", texcache_error_string(refused));
        exit(1);
    }
    *(uint64_t *)sum = total;
    texcache_end(&pass);
    return NULL;
}

int main(int count, char **words)
{
    pthread_t ids[16];
    uint64_t sums[16];
    if (count != 6 || texcache_open(&cache, words[1], NULL) || texcache_find(cache, words[2], &file)) return 2;
    int threads = atoi(words[3]);
    lookups = atol(words[4]);
    kind = words[5];
    pthread_barrier_init(&ready, NULL, threads + 1);
    for (int i = 0; i < threads; i++) pthread_create(&ids[i], NULL, work, &sums[i]);
    pthread_barrier_wait(&ready);
    double began = now();
    for (int i = 0; i < threads; i++) pthread_join(ids[i], NULL);
    double took = now() - began;
    printf("threads %d lookups %ld ns %.1f sum %llu\n", threads, lookups, took / lookups, (unsigned long long)sums[0]);
    return texcache_close(&cache);
}
