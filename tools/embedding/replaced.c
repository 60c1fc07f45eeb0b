/* Files that are replaced while they are read never mix within an answer: replaced FOLDER THREADS MILLISECONDS [LEAST],
 * where FOLDER is empty. Each file has one value in all its texels, and each version another; a version is put in
 * the place of the one before by a rename. Then four threads look up in one file, which is replaced all the time: at
 * least LEAST of their 12000 lookups have to be answered, and the others may only say that they are to be made again. */
#define _XOPEN_SOURCE 700
#include "texcache.h"
#include <pthread.h>
#include <stdio.h>
#include <stdlib.h>
#include <string.h>
#include <time.h>

enum { FILES = 4, SIDE = 200, MANY = 200, READERS = 4, LOOKUPS = 3000 };

static texcache *cache;
static const char *folder;
static int ends, mixed, older, answers, newest, looked_up, again, running;

/* A grey picture of 8 bits in strips of one row, with one value. */
static void put(int file, int value)
{
    static const int tags[8][3] = {{256, 3, SIDE}, {257, 3, SIDE}, {258, 3, 8}, {259, 3, 1}, {262, 3, 1},
                                   {273, 4, 110},  {278, 3, SIDE}, {279, 4, SIDE * SIDE}};
    static uint8_t bytes[110 + SIDE * SIDE];
    char name[4096], part[4096];
    memset(bytes, 0, 110);
    memcpy(bytes, "II*\0\10\0\0\0\10", 9);
    for (int i = 0; i < 8; i++) {
        uint8_t *at = bytes + 10 + 12 * i;
        at[0] = tags[i][0] & 255, at[1] = (uint8_t)(tags[i][0] >> 8), at[2] = (uint8_t)tags[i][1], at[4] = 1;
        for (int k = 0; k < 4; k++) at[8 + k] = (uint8_t)(tags[i][2] >> 8 * k);
    }
    memset(bytes + 110, value, SIDE * SIDE);
    snprintf(name, sizeof name, "%s/f%d.tif", folder, file);
    snprintf(part, sizeof part, "%s/part", folder);
    FILE *to = fopen(part, "wb");
    if (!to || fwrite(bytes, 1, sizeof bytes, to) != sizeof bytes || fclose(to) || rename(part, name)) exit(2);
}

static void *reads(void *given)
{
    unsigned random = 12345 + (unsigned)(uintptr_t)given;
    uint32_t seen[FILES] = {0};
    texcache_pass *pass;
    texcache_answer a;
    uint16_t *out = malloc(SIDE * SIDE * sizeof *out);
    if (texcache_new_pass(cache, &pass)) exit(2);
    while (!__atomic_load_n(&ends, __ATOMIC_RELAXED)) {
        random = random * 1664525u + 1013904223u;
        uint32_t file = (random >> 24) % FILES;
        size_t count;
        int status;
        if (random >> 18 & 1) {
            static const double along = 0.004;
            texcache_texture_options o = texcache_default_texture_options(1);
            double s[MANY], t[MANY], ds[MANY], dt[MANY];
            texcache_coordinates at = {s, t, NULL, NULL, NULL, NULL, 1};
            for (int i = 0; i < MANY; i++) {
                s[i] = i / (double)MANY, t[i] = (random >> 8 & 255) / 255.0;
                ds[i] = along * (i % 7), dt[i] = along;
            }
            if (random >> 17 & 1) at.dsdx = ds, at.dtdx = dt, at.dsdy = dt, at.dtdy = s;
            status = texcache_texture_many(pass, file, &o, &at, MANY, out, SIDE * SIDE, &count, &a);
        } else if (random >> 16 & 3) {
            texcache_region all = {0, 0, 0, SIDE, SIDE};
            status = texcache_get_pixels(pass, file, &all, out, SIDE * SIDE, &a);
            count = SIDE * SIDE;
        } else {
            texcache_lookup r = texcache_lookup_at((int32_t)(random & 65535), 777, random & 262143, 1);
            r.filter = TEXCACHE_TRILINEAR;
            status = texcache_texture_fixed(pass, file, &r, out, 8, &a);
            count = 1;
        }
        if (status == TEXCACHE_AGAIN) continue;
        if (status) {
            fprintf(stderr, "replaced: %s\n", texcache_last_error());
            exit(2);
        }
        for (size_t i = 1; i < count; i++)
            if (out[i] != out[0]) {
                __atomic_fetch_add(&mixed, 1, __ATOMIC_RELAXED);
                break;
            }
        if (a.generation < seen[file]) __atomic_fetch_add(&older, 1, __ATOMIC_RELAXED);
        seen[file] = a.generation;
        __atomic_fetch_add(&answers, 1, __ATOMIC_RELAXED);
        if (!(random & 15)) texcache_invalidate(pass, file, false, NULL);
    }
    for (int i = 0; i < FILES; i++)
        if ((int)seen[i] > __atomic_load_n(&newest, __ATOMIC_RELAXED)) __atomic_store_n(&newest, (int)seen[i], __ATOMIC_RELAXED);
    free(out);
    texcache_end(&pass);
    return NULL;
}

/* Looks up in one file, of which nothing is kept. */
static void *looks_up(void *given)
{
    const texcache_texture_options o = texcache_default_texture_options(1);
    unsigned random = 54321 + (unsigned)(uintptr_t)given;
    texcache_pass *pass;
    if (texcache_this_thread(cache, &pass)) exit(2);
    for (int i = 0; i < LOOKUPS; i++) {
        uint16_t out;
        random = random * 1664525u + 1013904223u;
        int status = texcache_texture(pass, 0, &o, (random >> 8) / 16777216.0, (random >> 4 & 65535) / 65536.0, &out, 1, NULL);
        if (status && status != TEXCACHE_AGAIN) {
            fprintf(stderr, "replaced: %s\n", texcache_last_error());
            exit(2);
        }
        __atomic_fetch_add(status ? &again : &looked_up, 1, __ATOMIC_RELAXED);
    }
    __atomic_fetch_sub(&running, 1, __ATOMIC_RELEASE);
    return NULL;
}

/* Replaces one file more than 250 times a second while threads look up in it. Returns whether enough was answered. */
static int one_file(int least)
{
    texcache_options o = texcache_default_options();
    pthread_t ids[READERS];
    struct timespec pause = {0, 1000000}, from, to;
    int versions = 0;
    uint32_t file;
    o.budget = 0;
    if (texcache_open(&cache, folder, &o) || texcache_find(cache, "f0.tif", &file)) exit(2);
    running = READERS;
    clock_gettime(CLOCK_MONOTONIC, &from);
    for (int i = 0; i < READERS; i++) pthread_create(&ids[i], NULL, looks_up, (void *)(uintptr_t)i);
    for (; __atomic_load_n(&running, __ATOMIC_ACQUIRE); versions++) {
        put(0, versions % 251);
        nanosleep(&pause, NULL);
    }
    for (int i = 0; i < READERS; i++) pthread_join(ids[i], NULL);
    texcache_close(&cache);
    clock_gettime(CLOCK_MONOTONIC, &to);
    double seconds = (double)(to.tv_sec - from.tv_sec) + (double)(to.tv_nsec - from.tv_nsec) / 1e9;
    printf("looked up %d again %d, %.0f versions a second\n", looked_up, again, versions / seconds);
    return looked_up >= least;
}

int main(int count, char **words)
{
    if (count != 4 && count != 5) return 2;
    folder = words[1];
    int threads = atoi(words[2]), milliseconds = atoi(words[3]);
    texcache_options o = texcache_default_options();
    o.budget = 200000;
    o.handles = 2;
    for (int i = 0; i < FILES; i++) put(i, i);
    if (texcache_open(&cache, folder, &o) || texcache_find_all(cache, ".", NULL)) return 2;
    pthread_t *ids = malloc(threads * sizeof *ids);
    for (int i = 0; i < threads; i++) pthread_create(&ids[i], NULL, reads, (void *)(uintptr_t)i);
    struct timespec pause = {0, 5000000};
    for (int i = 0; 5 * i < milliseconds; i++) {
        put(i % FILES, i % 251);
        nanosleep(&pause, NULL);
    }
    __atomic_store_n(&ends, 1, __ATOMIC_RELAXED);
    for (int i = 0; i < threads; i++) pthread_join(ids[i], NULL);
    free(ids);
    texcache_close(&cache);
    printf("answers %d mixed %d older %d newest %d\n", answers, mixed, older, newest);
    return mixed || older || !answers || !one_file(count == 5 ? atoi(words[4]) : 0);
}
