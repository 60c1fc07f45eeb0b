/* images.h: what the tests of errors, options and statistics share: claims, and images whose samples are a formula. */
#ifndef IMAGES_H
#define IMAGES_H

#include "texcache.h"
#include <stdio.h>
#include <stdlib.h>
#include <string.h>

static int failures;

#define SAYS(call, wanted)                                                                                           \
    do {                                                                                                             \
        int said = (int)(call);                                                                                      \
        if (said != (wanted)) {                                                                                      \
            printf("line %d: %s is '%s', wanted '%s'\n", __LINE__, #call, texcache_error_string(said),                \
                   texcache_error_string(wanted));                                                                   \
            __atomic_fetch_add(&failures, 1, __ATOMIC_RELAXED);                                                      \
        }                                                                                                            \
    } while (0)

#define IS(holds)                                                   \
    do {                                                            \
        if (!(holds)) {                                             \
            printf("line %d: not so: %s\n", __LINE__, #holds);      \
            __atomic_fetch_add(&failures, 1, __ATOMIC_RELAXED);     \
        }                                                           \
    } while (0)

/* An image of 8-bit samples: of strips of one row each if `tile` is 0, or else of tiles of that side. */
typedef struct image {
    unsigned width, height, channels, tile, compression;
    unsigned (*sample)(unsigned x, unsigned y, unsigned channel);
} image;

static void put_number(uint8_t *to, unsigned long number, int size)
{
    while (size-- > 0) *to++ = (uint8_t)number, number >>= 8;
}

/* Where the sample of a texel is in the data behind the head, in strips or tiles. */
static size_t place_in(const image *it, unsigned x, unsigned y)
{
    if (!it->tile) return ((size_t)y * it->width + x) * it->channels;
    size_t across = (it->width + it->tile - 1) / it->tile, tile = y / it->tile * across + x / it->tile;
    return ((tile * it->tile + y % it->tile) * it->tile + x % it->tile) * it->channels;
}

/* Writes an image to FOLDER/NAME, by a rename. Its size on the disk is 512 bytes, the offsets of its blocks and then its
 * blocks. Returns where its data begin. */
static size_t put_image(const char *folder, const char *name, image it)
{
    size_t blocks = it.tile ? (size_t)((it.width + it.tile - 1) / it.tile) * ((it.height + it.tile - 1) / it.tile) : it.height;
    size_t block = (size_t)(it.tile ? it.tile * it.tile : it.width) * it.channels, head = 512 + 4 * blocks;
    const unsigned long tags[][2] = {{256, it.width}, {257, it.height}, {258, 8}, {259, it.compression ? it.compression : 1},
                                     {262, it.channels > 2 ? 2 : 1}, {it.tile ? 277 : 273, 0}, {it.tile ? 322 : 277, 0},
                                     {it.tile ? 323 : 278, it.tile ? it.tile : 1}, {324, 0}};
    size_t size = head + blocks * block, entries = it.tile ? 9 : 8;
    uint8_t *bytes = calloc(size, 1);
    char to[4096], part[4096];
    if (!bytes) exit(2);
    memcpy(bytes, "II*\0\10\0\0\0", 8);
    put_number(bytes + 8, entries, 2);
    for (size_t i = 0; i < entries; i++) {
        uint8_t *at = bytes + 10 + 12 * i;
        unsigned long tag = tags[i][0], value = tags[i][1], count = 1, type = 4;
        if (tag == 277) value = it.channels;
        if (tag == 322) value = it.tile;
        if (tag == 258) type = 3, value = 8, count = it.channels;
        if (tag == 258 && count > 2) value = 300;
        if (tag == 258 && count == 2) value = 8 | 8 << 16;
        if (tag == 273 || tag == 324) count = blocks, value = blocks > 1 ? 512 : head;
        put_number(at, tag, 2), put_number(at + 2, type, 2), put_number(at + 4, count, 4), put_number(at + 8, value, 4);
    }
    for (int i = 0; i < 8; i++) put_number(bytes + 300 + 2 * i, 8, 2);
    for (size_t i = 0; i < blocks; i++) put_number(bytes + 512 + 4 * i, head + i * block, 4);
    for (unsigned y = 0; y < it.height; y++)
        for (unsigned x = 0; x < it.width; x++)
            for (unsigned c = 0; c < it.channels; c++) bytes[head + place_in(&it, x, y) + c] = (uint8_t)it.sample(x, y, c);
    snprintf(to, sizeof to, "%s/%s", folder, name);
    snprintf(part, sizeof part, "%s/part", folder);
    FILE *file = fopen(part, "wb");
    if (!file || fwrite(bytes, 1, size, file) != size || fclose(file) || rename(part, to)) exit(2);
    free(bytes);
    return head;
}

static inline uint32_t file_of(texcache *cache, const char *name)
{
    uint32_t file = 0;
    if (texcache_find(cache, name, &file)) exit(2);
    return file;
}

#endif
