/* Bad use and bad input, each with its refusal: bad_use FOLDER, an empty folder that it may write to.
 * The proved library is driven by hand first, and then the calls of texcache.h. (Lookups on doubles are in lookups.c,
 * passes, threads and forks in passes.c, and open files in descriptors.c.) */
#define _XOPEN_SOURCE 700
#include "texcache_inside.h"
#include <stdio.h>
#include <stdlib.h>
#include <string.h>
#include <sys/stat.h>
#include <time.h>
#include <unistd.h>

static int failures;
static const texcache_supply_options usual = {UINT64_C(268435456), 16, 16, 100, 64, 1024, 0, true};

#define SAYS(call, wanted)                                                                                          \
    do {                                                                                                            \
        int said = (int)(call);                                                                                     \
        if (said != (wanted)) {                                                                                     \
            printf("line %d: %s is '%s', wanted '%s'\n", __LINE__, #call, texcache_error_string(said),               \
                   texcache_error_string(wanted));                                                                  \
            failures++;                                                                                             \
        }                                                                                                           \
    } while (0)

#define IS(holds)                                                         \
    do {                                                                  \
        if (!(holds)) {                                                   \
            printf("line %d: not so: %s\n", __LINE__, #holds);            \
            failures++;                                                   \
        }                                                                 \
    } while (0)

/* A grey picture of 8 by 8 samples of 8 bits with one value, in one strip: 8 entries, 8 + 2 + 96 + 4 + 64 bytes. */
static size_t picture(uint8_t *to, uint8_t value)
{
    static const uint16_t entries[8][3] = {{256, 3, 8},  {257, 3, 8},   {258, 3, 8}, {259, 3, 1},
                                           {262, 3, 1},  {273, 4, 110}, {278, 3, 8}, {279, 4, 64}};
    memset(to, 0, 174);
    memcpy(to, "II*\0\10\0\0\0\10", 9);
    for (int i = 0; i < 8; i++) {
        uint8_t *at = to + 10 + 12 * i;
        at[0] = entries[i][0] & 255, at[1] = entries[i][0] >> 8, at[2] = (uint8_t)entries[i][1], at[4] = 1;
        at[8] = entries[i][2] & 255, at[9] = entries[i][2] >> 8;
    }
    memset(to + 110, value, 64);
    return 174;
}

static void write_file(const char *folder, const char *name, const uint8_t *bytes, size_t count)
{
    char path[4096];
    snprintf(path, sizeof path, "%s/%s", folder, name);
    FILE *to = fopen(path, "wb");
    if (!to || fwrite(bytes, 1, count, to) != count || fclose(to)) exit(2);
}

/* Waits until a file that is written now has another time than before. */
static void wait_a_little(void)
{
    struct timespec pause = {0, 20000000};
    nanosleep(&pause, NULL);
}

/* Bytes are copied to room of the library and supplied. */
static uint32_t supply(texcache_held *held, uint32_t file, uint32_t generation, uint64_t at, const uint8_t *bytes, size_t count)
{
    texcache_room room = {NULL};
    uint8_t *to;
    if (tex_c_room(*held, held, count, &room, &to)) exit(2);
    memcpy(to, bytes, count);
    return tex_c_supply_bytes(*held, held, file, generation, at, room);
}

static uint32_t supply_rows(texcache_held *held, texcache_rows rows, const uint8_t *bytes, size_t count)
{
    texcache_room room = {NULL};
    uint8_t *to;
    if (tex_c_room(*held, held, count, &room, &to)) exit(2);
    memcpy(to, bytes, count);
    return tex_c_supply_rows(*held, held, &rows, room);
}

/* Many lookups by hand, of a picture of which nothing is known: the first call says that a look is lacking and the next
 * that bytes are; a place out of range is named before anything is read; nothing else is written. */
static void batch_by_hand(void)
{
    uint8_t bytes[200];
    size_t size = picture(bytes, 7);
    const int64_t half = INT64_C(1) << 31, side = INT64_C(1) << 47;
    texcache_supply_options o = usual;
    texcache_held held = {NULL}, none = {NULL};
    texcache_supply_answer a;
    texcache_batch_answer b;
    texcache_batch batch = {0, 0, 0, TEXCACHE_BILINEAR, TEXCACHE_PERIODIC, TEXCACHE_PERIODIC, 1}, bad = batch;
    texcache_place at[4] = {{half, half, 0, 0, 0, 0}, {0, -1, 0, 0, 0, 0}, {side - 1, -side, 0, 0, 0, 0}, {1, 1, 0, 0, 0, 0}};
    texcache_counts counts;
    uint16_t out[6] = {1, 2, 3, 4, 5, 6};
    SAYS(tex_c_new(&held, &o, 1, &a), TEXCACHE_OK);
    SAYS(tex_c_texture_many(held, &held, &batch, at, 4, out, 3, &b), TEXCACHE_SMALL_BUFFER);
    bad.file = 1;
    SAYS(tex_c_texture_many(held, &held, &bad, at, 4, out, 6, &b), TEXCACHE_NO_FILE);
    bad = batch, bad.filter = 3;
    SAYS(tex_c_texture_many(held, &held, &bad, at, 4, out, 6, &b), TEXCACHE_BAD_REQUEST);
    bad = batch, bad.twrap = 4;
    SAYS(tex_c_texture_many(held, &held, &bad, at, 4, out, 6, &b), TEXCACHE_BAD_REQUEST);
    bad = batch, bad.channels = 9;
    SAYS(tex_c_texture_many(held, &held, &bad, at, 4, out, 64, &b), TEXCACHE_BAD_REQUEST);
    bad = batch, bad.max_probes = 33;
    SAYS(tex_c_texture_many(held, &held, &bad, at, 2, out, 6, &b), TEXCACHE_BAD_REQUEST);
    bad.max_probes = 16;
    SAYS(tex_c_texture_many(held, &held, &bad, at, 4, out, 6, &b), TEXCACHE_BAD_REQUEST);
    IS(b.done == 2);
    at[1].t = side;
    SAYS(tex_c_texture_many(held, &held, &batch, at, 4, out, 6, &b), TEXCACHE_BAD_REQUEST);
    IS(b.done == 1);
    at[1].t = -1;
    SAYS(tex_c_texture_many(held, &held, &batch, at, 4, out, 6, &b), TEXCACHE_NEEDED);
    IS(b.error.need == 1 && b.done == 0 && out[0] == 1);
    SAYS(tex_c_supply_look(held, &held, 0, 3, size), TEXCACHE_OK);
    SAYS(tex_c_texture_many(held, &held, &batch, at, 4, out, 6, &b), TEXCACHE_NEEDED);
    IS(b.error.need == 2 && b.error.need_generation == 3 && b.done == 0);
    SAYS(supply(&held, 0, 3, 0, bytes, size), TEXCACHE_OK);
    SAYS(tex_c_texture_many(held, &held, &batch, at, 4, out, 6, &b), TEXCACHE_OK);
    IS(b.generation == 3 && out[0] == 1799 && out[3] == 1799 && out[4] == 5 && out[5] == 6);
    tex_c_counts(held, &held, &counts);
    IS(counts.needs == 16);
    SAYS(tex_c_texture_many(held, &held, &batch, at, 4, out, 6, &b), TEXCACHE_OK);
    tex_c_counts(held, &held, &counts);
    IS(counts.needs == 32 && counts.hits >= 16);
    tex_c_free(held, none, &held);
}

/* The library by hand: each wrong supply is refused and changes nothing, and the right one goes on. */
static void by_hand(void)
{
    uint8_t bytes[200], other[200];
    size_t size = picture(bytes, 7);
    texcache_supply_options o = usual;
    texcache_held held = {NULL}, second = {NULL};
    texcache_supply_answer a;
    texcache_info info;
    texcache_lookup r = texcache_lookup_at(32768, 32768, 0, 1);
    uint16_t out[8];
    picture(other, 9);
    memset(&a, 0, sizeof a);
    o.passes = 1;
    SAYS(tex_c_new(&held, &o, 4097, &a), TEXCACHE_BAD_REQUEST);
    SAYS(tex_c_new(&held, &o, 3, &a), TEXCACHE_OK);
    SAYS(tex_c_split(held, &held, &second), TEXCACHE_NO_PERMIT);
    SAYS(tex_c_info(held, &held, 3, &info, &a), TEXCACHE_NO_FILE);
    SAYS(tex_c_supply_look(held, &held, 1, 1, 174), TEXCACHE_NOT_NEEDED);
    SAYS(supply(&held, 1, 1, 0, bytes, size), TEXCACHE_NOT_NEEDED);
    texcache_rows rows = {1, 1, 110, 8, 8};
    SAYS(supply_rows(&held, rows, bytes + 110, 64), TEXCACHE_NOT_NEEDED);
    SAYS(tex_c_supply_fault(held, &held), TEXCACHE_NOT_NEEDED);
    /* the library needs to know the file's version and size */
    SAYS(tex_c_texture(held, &held, 1, &r, out, 8, &a), TEXCACHE_NEEDED);
    IS(a.need == 1 && a.need_file == 1 && a.need_generation == 0);
    SAYS(supply(&held, 1, 1, 0, bytes, size), TEXCACHE_NOT_NEEDED);
    SAYS(tex_c_supply_look(held, &held, 2, 1, size), TEXCACHE_OTHER_PLACE);
    SAYS(tex_c_supply_look(held, &held, 1, 0, size), TEXCACHE_OTHER_GENERATION);
    SAYS(tex_c_supply_look(held, &held, 1, 1048576, size), TEXCACHE_OTHER_GENERATION);
    SAYS(tex_c_supply_look(held, &held, 1, 5, size), TEXCACHE_OK);
    /* the library needs bytes of generation 5 */
    SAYS(tex_c_texture(held, &held, 1, &r, out, 8, &a), TEXCACHE_NEEDED);
    IS(a.need == 2 && a.need_file == 1 && a.need_generation == 5 && a.need_at == 0 && a.need_most == size);
    rows.generation = 5;
    SAYS(supply_rows(&held, rows, bytes + 110, 64), TEXCACHE_NOT_NEEDED);
    SAYS(supply(&held, 2, 5, 0, bytes, size), TEXCACHE_OTHER_PLACE);
    SAYS(supply(&held, 1, 5, 1, bytes + 1, size - 1), TEXCACHE_OTHER_PLACE);
    SAYS(supply(&held, 1, 4, 0, other, size), TEXCACHE_OLDER);
    SAYS(supply(&held, 1, 6, 0, other, size), TEXCACHE_OTHER_GENERATION);
    SAYS(supply(&held, 1, 5, 0, bytes, (size_t)a.need_least - 1), TEXCACHE_SHORT);
    SAYS(supply(&held, 1, 5, 0, bytes, size + 1), TEXCACHE_LONG);
    SAYS(tex_c_supply_look(held, &held, 1, 5, size), TEXCACHE_OLDER);
    SAYS(tex_c_supply_look(held, &held, 1, 4, size), TEXCACHE_OLDER);
    SAYS(supply(&held, 1, 5, 0, bytes, size), TEXCACHE_OK);
    SAYS(tex_c_texture(held, &held, 1, &r, out, 8, &a), TEXCACHE_OK);
    IS(a.generation == 5 && out[0] == 7 * 257);
    /* the file is replaced while it is read again: the library learns of the new version, and drops generation 5 */
    SAYS(tex_c_invalidate(held, &held, 1, true, &a), TEXCACHE_NEEDED);
    IS(a.need == 1 && a.need_generation == 5);
    SAYS(tex_c_supply_look(held, &held, 1, 4, size), TEXCACHE_OLDER);
    SAYS(tex_c_supply_look(held, &held, 1, 5, size), TEXCACHE_OK);
    SAYS(tex_c_invalidate(held, &held, 1, true, &a), TEXCACHE_OK);
    IS(a.generation == 5);
    SAYS(tex_c_texture(held, &held, 1, &r, out, 8, &a), TEXCACHE_NEEDED);
    if (a.need == 1) {
        SAYS(tex_c_supply_look(held, &held, 1, 5, size), TEXCACHE_OK);
        SAYS(tex_c_texture(held, &held, 1, &r, out, 8, &a), TEXCACHE_NEEDED);
    }
    SAYS(tex_c_supply_look(held, &held, 1, 6, size), TEXCACHE_OK);
    SAYS(tex_c_texture(held, &held, 1, &r, out, 8, &a), TEXCACHE_NEEDED);
    IS(a.need == 2 && a.need_generation == 6);
    SAYS(tex_c_supply_look(held, &held, 1, 6, size), TEXCACHE_OLDER);
    SAYS(supply(&held, 1, 5, a.need_at, bytes, size), TEXCACHE_OLDER);
    SAYS(supply(&held, 1, 6, a.need_at, other + a.need_at, size - (size_t)a.need_at), TEXCACHE_OK);
    SAYS(tex_c_texture(held, &held, 1, &r, out, 8, &a), TEXCACHE_OK);
    IS(a.generation == 6 && out[0] == 9 * 257);
    /* the library knows generation 7 of the file, and generation 8 has replaced it */
    SAYS(tex_c_invalidate(held, &held, 1, false, &a), TEXCACHE_NEEDED);
    SAYS(tex_c_supply_look(held, &held, 1, 7, size), TEXCACHE_OK);
    SAYS(tex_c_invalidate(held, &held, 1, false, &a), TEXCACHE_OK);
    IS(a.generation == 7);
    while (tex_c_info(held, &held, 1, &info, &a) == TEXCACHE_NEEDED) {
        if (a.need == 1) SAYS(tex_c_supply_look(held, &held, 1, 7, size), TEXCACHE_OK);
        else SAYS(supply(&held, 1, 7, a.need_at, other + a.need_at, size - (size_t)a.need_at), TEXCACHE_OK);
    }
    IS(a.generation == 7 && info.width == 8 && info.levels == 4);
    SAYS(tex_c_texture(held, &held, 1, &r, out, 8, &a), TEXCACHE_NEEDED);
    IS(a.need == 1 && a.need_generation == 7);
    SAYS(tex_c_supply_look(held, &held, 1, 8, size), TEXCACHE_OK);
    SAYS(tex_c_texture(held, &held, 1, &r, out, 8, &a), TEXCACHE_AGAIN);
    IS(a.generation == 7 && a.newer == 8);
    SAYS(tex_c_texture(held, &held, 1, &r, out, 8, &a), TEXCACHE_NEEDED);
    IS(a.need == 1 && a.need_generation == 8);
    SAYS(tex_c_supply_look(held, &held, 1, 7, size), TEXCACHE_OLDER);
    SAYS(tex_c_supply_fault(held, &held), TEXCACHE_OK);
    SAYS(tex_c_texture(held, &held, 1, &r, out, 8, &a), TEXCACHE_READ_FAULT);
    /* many lookups: the lacking bytes are asked for, the counts are those of the answered call, and the values behind
     * the last answered lookup are unchanged */
    batch_by_hand();
    /* bytes that cannot be read are a read fault, and the next call asks for them again */
    SAYS(tex_c_texture(held, &held, 2, &r, out, 8, &a), TEXCACHE_NEEDED);
    SAYS(tex_c_supply_fault(held, &held), TEXCACHE_OK);
    SAYS(tex_c_texture(held, &held, 2, &r, out, 8, &a), TEXCACHE_READ_FAULT);
    SAYS(tex_c_texture(held, &held, 2, &r, out, 8, &a), TEXCACHE_NEEDED);
    /* room that is not needed goes back */
    texcache_room room = {NULL};
    uint8_t *to = NULL;
    SAYS(tex_c_room(held, &held, 1000000, &room, &to), TEXCACHE_OK);
    memset(to, 1, 1000000);
    tex_c_give_back(held, &held, room);
    texcache_held none = {NULL};
    tex_c_free(held, none, &held);
    IS(!held.at);
}

enum { WIDE = 8000, HIGH = 70, WIDE_SIZE = 110 + WIDE * HIGH };

/* A grey image of 8000 by 70 samples in one strip. The rows of a cell are far apart, so the library asks for rows. */
static void wide_picture(uint8_t *to)
{
    static const uint32_t entries[8][3] = {{256, 3, WIDE}, {257, 3, HIGH}, {258, 3, 8},   {259, 3, 1},
                                           {262, 3, 1},    {273, 4, 110},  {278, 3, HIGH}, {279, 4, WIDE * HIGH}};
    memset(to, 0, 110);
    memcpy(to, "II*\0\10\0\0\0\10", 9);
    for (int i = 0; i < 8; i++) {
        uint8_t *at = to + 10 + 12 * i;
        at[0] = entries[i][0] & 255, at[1] = (uint8_t)(entries[i][0] >> 8), at[2] = (uint8_t)entries[i][1], at[4] = 1;
        for (int k = 0; k < 4; k++) at[8 + k] = (uint8_t)(entries[i][2] >> 8 * k);
    }
    for (int i = 0; i < WIDE * HIGH; i++) to[110 + i] = (uint8_t)(i % WIDE + i / WIDE);
}

/* Rows by hand: each wrong supply of them is refused and changes nothing, and the right one goes on. */
static void rows_by_hand(void)
{
    static uint8_t bytes[WIDE_SIZE], given[WIDE_SIZE];
    size_t size = WIDE_SIZE;
    texcache_supply_options o = usual;
    texcache_held held = {NULL}, none = {NULL};
    texcache_supply_answer a;
    texcache_lookup r = texcache_lookup_at(32768, 32768, 0, 1);
    uint16_t out[8];
    uint32_t code;
    int rows_needed = 0;
    r.filter = TEXCACHE_CLOSEST;
    wide_picture(bytes);
    SAYS(tex_c_new(&held, &o, 1, &a), TEXCACHE_OK);
    while ((code = tex_c_texture(held, &held, 0, &r, out, 8, &a)) == TEXCACHE_NEEDED) {
        if (a.need == 1) {
            SAYS(tex_c_supply_look(held, &held, 0, 3, size), TEXCACHE_OK);
            continue;
        }
        if (a.need == 2) {
            SAYS(supply(&held, 0, 3, a.need_at, bytes + a.need_at, (size_t)a.need_least), TEXCACHE_OK);
            continue;
        }
        texcache_rows rows = {0, 3, a.need_at, a.need_stride, a.need_row}, wrong = rows;
        size_t count = (size_t)a.need_least, row = (size_t)a.need_row;
        rows_needed++;
        IS(a.need == 3 && a.need_generation == 3 && a.need_most == count && row && count % row == 0 && a.need_stride >= row);
        for (size_t k = 0; k < count; k++) given[k] = bytes[a.need_at + k / row * a.need_stride + k % row];
        SAYS(supply(&held, 0, 3, a.need_at, given, count), TEXCACHE_NOT_NEEDED);
        wrong.stride++;
        SAYS(supply_rows(&held, wrong, given, count), TEXCACHE_OTHER_PLACE);
        wrong = rows, wrong.at++;
        SAYS(supply_rows(&held, wrong, given, count), TEXCACHE_OTHER_PLACE);
        wrong = rows, wrong.row--;
        SAYS(supply_rows(&held, wrong, given, count), TEXCACHE_OTHER_PLACE);
        wrong = rows, wrong.generation = 2;
        SAYS(supply_rows(&held, wrong, given, count), TEXCACHE_OLDER);
        wrong = rows, wrong.generation = 4;
        SAYS(supply_rows(&held, wrong, given, count), TEXCACHE_OTHER_GENERATION);
        SAYS(supply_rows(&held, rows, given, count - row), TEXCACHE_SHORT);
        SAYS(supply_rows(&held, rows, given, count + row), TEXCACHE_LONG);
        SAYS(tex_c_supply_look(held, &held, 0, 3, size), TEXCACHE_OLDER);
        SAYS(supply_rows(&held, rows, given, count), TEXCACHE_OK);
    }
    SAYS(code, TEXCACHE_OK);
    IS(rows_needed > 0);
    IS(a.generation == 3 && out[0] == 257 * bytes[110 + WIDE * (HIGH / 2) + WIDE / 2]);
    tex_c_free(held, none, &held);
}

static void options_out_of_range(const char *folder)
{
    texcache *cache = NULL;
    uint32_t bad = 0;
    texcache_options o[7];
    for (int i = 0; i < 7; i++) o[i] = texcache_default_options();
    o[0].budget = UINT64_C(1099511627777);
    o[1].shards = 65;
    o[2].passes = 1025;
    o[3].handles = 0;
    o[4].autotile = 65;
    o[5].slots = 65537;
    o[6].tiles_per_shard = 65537;
    for (uint32_t i = 0; i < 7; i++) {
        SAYS(texcache_open_saying(&cache, folder, &o[i], &bad), TEXCACHE_BAD_OPTIONS);
        IS(bad == i + 1 && !cache);
    }
    SAYS(texcache_open(&cache, "no such folder", NULL), TEXCACHE_NO_FOLDER);
    IS(!cache);
    SAYS(texcache_open(NULL, folder, NULL), TEXCACHE_BAD_ARGUMENT);
    SAYS(texcache_open(&cache, NULL, NULL), TEXCACHE_BAD_ARGUMENT);
    o[0] = texcache_default_options();
    o[0].size--;
    SAYS(texcache_open_saying(&cache, folder, &o[0], &bad), TEXCACHE_BAD_ARGUMENT);
    IS(bad == 0);
}

static void over_a_folder(const char *folder)
{
    texcache *cache;
    texcache_pass *pass, *more[16];
    texcache_answer a;
    texcache_supply_answer need;
    texcache_info info;
    texcache_tile tile;
    texcache_region region = {0, -1, 0, 3, 2};
    texcache_lookup r = texcache_lookup_at(32768, 32768, 0, 1), bad = r;
    texcache_texture_options fine = texcache_default_texture_options(1);
    texcache_options o = texcache_default_options();
    uint32_t grey, cut, gone, pipe, link, late;
    uint8_t bytes[200];
    uint16_t out[600];
    char path[4096];
    size_t size = picture(bytes, 7);
    write_file(folder, "grey.tif", bytes, size);
    write_file(folder, "cut.tif", bytes, size - 1);
    write_file(folder, "gone.tif", bytes, size);
    write_file(folder, "pipe.tif", bytes, size);
    write_file(folder, "link.tif", bytes, size);
    write_file(folder, "late.tif", bytes, size);
    o.passes = 3;
    o.missing_ms = 0;
    SAYS(texcache_open(&cache, folder, &o), TEXCACHE_OK);
    IS(texcache_file_count(cache) == 0 && !texcache_file_name(cache, 0));
    SAYS(texcache_find_all(cache, ".", &late), TEXCACHE_OK);
    IS(late == 6 && texcache_file_count(cache) == 6 && !strcmp(texcache_file_name(cache, 2), "grey.tif"));
    SAYS(texcache_find(cache, "grey.tif", &grey), TEXCACHE_OK);
    SAYS(texcache_find(cache, "cut.tif", &cut), TEXCACHE_OK);
    SAYS(texcache_find(cache, "gone.tif", &gone), TEXCACHE_OK);
    SAYS(texcache_find(cache, "pipe.tif", &pipe), TEXCACHE_OK);
    SAYS(texcache_find(cache, "link.tif", &link), TEXCACHE_OK);
    SAYS(texcache_find(cache, "late.tif", &late), TEXCACHE_OK);
    SAYS(texcache_find(cache, "moon.tif", &gone), TEXCACHE_NO_NAME);
    SAYS(texcache_find(NULL, "moon.tif", &gone), TEXCACHE_BAD_ARGUMENT);
    SAYS(texcache_new_pass(cache, &pass), TEXCACHE_OK);
    SAYS(texcache_new_pass(cache, &more[0]), TEXCACHE_OK);
    SAYS(texcache_new_pass(cache, &more[1]), TEXCACHE_NO_PERMIT);
    IS(!more[1]);
    SAYS(texcache_close(&cache), TEXCACHE_PASSES_LEFT);
    /* a call in a pass that runs another, and in none */
    pass->state = TEXC_USED;
    SAYS(texcache_texture_fixed(pass, grey, &r, out, 8, &a), TEXCACHE_IN_USE);
    SAYS(texcache_end(&pass), TEXCACHE_IN_USE);
    pass->state = TEXC_FREE;
    SAYS(texcache_texture_fixed(NULL, grey, &r, out, 8, &a), TEXCACHE_BAD_ARGUMENT);
    /* numbers out of range, and buffers that are too small */
    SAYS(texcache_texture_fixed(pass, 6, &r, out, 8, &a), TEXCACHE_NO_FILE);
    SAYS(texcache_texture(pass, 6, &fine, 0.5, 0.5, out, 8, &a), TEXCACHE_NO_FILE);
    SAYS(texcache_invalidate(pass, 4095, true, &a), TEXCACHE_NO_FILE);
    SAYS(texcache_get_tile(pass, 4096, 0, 0, 0, &a), TEXCACHE_NO_FILE);
    SAYS(texcache_get_info(pass, UINT32_MAX, &info, &a), TEXCACHE_NO_FILE);
    bad.channels = 9;
    SAYS(texcache_texture_fixed(pass, grey, &bad, out, 8, &a), TEXCACHE_BAD_REQUEST);
    IS(a.detail == TEXCACHE_BAD_CHANNELS);
    bad.channels = 0;
    SAYS(texcache_texture_d_fixed(pass, grey, &bad, out, 8, &a), TEXCACHE_BAD_REQUEST);
    IS(a.detail == TEXCACHE_BAD_CHANNELS);
    bad = r, bad.swrap = 4;
    SAYS(texcache_texture_fixed(pass, grey, &bad, out, 8, &a), TEXCACHE_BAD_REQUEST);
    IS(a.detail == TEXCACHE_BAD_SWRAP);
    bad = r, bad.filter = 3;
    SAYS(texcache_texture_local_fixed(pass, grey, &bad, out, 8, &a), TEXCACHE_BAD_REQUEST);
    IS(a.detail == TEXCACHE_BAD_FILTER);
    bad = r, bad.dsdx = 1 << 30;
    SAYS(texcache_texture_d_fixed(pass, grey, &bad, out, 8, &a), TEXCACHE_BAD_REQUEST);
    IS(a.detail == TEXCACHE_BAD_PLACE);
    bad = r, bad.channels = 3;
    SAYS(texcache_texture_fixed(pass, grey, &bad, out, 2, &a), TEXCACHE_SMALL_BUFFER);
    IS(a.value == 3);
    SAYS(texcache_get_pixels(pass, grey, &region, out, 5, &a), TEXCACHE_SMALL_BUFFER);
    IS(a.value == 6);
    SAYS(texcache_get_pixels(pass, grey, &region, out, 6, &a), TEXCACHE_OK);
    IS(a.value == 6 && a.channels == 1 && a.generation == 1 && out[0] == 0 && out[1] == 1799 && out[5] == 1799);
    region.w = 2048, region.h = 1024;
    SAYS(texcache_get_pixels(pass, grey, &region, out, 6, &a), TEXCACHE_REGION_TOO_LARGE);
    region.w = 1, region.h = 1, region.level = 9;
    SAYS(texcache_get_pixels(pass, grey, &region, out, 6, &a), TEXCACHE_NO_LEVEL);
    IS(a.detail == 4);
    /* lookups, and the microcache alone */
    SAYS(texcache_texture_footprint(pass, grey, &fine, 0.5, 0.5, 0.25, 0, 0, 0.25, out, 8, &a), TEXCACHE_OK);
    IS(a.generation == 1 && out[0] == 1799 && texcache_float(out[0]) == 1799 / 65535.0f);
    SAYS(texcache_texture_local_fixed(more[0], grey, &r, out, 8, &a), TEXCACHE_NOT_LOCAL);
    SAYS(texcache_texture_fixed(more[0], grey, &r, out, 8, &a), TEXCACHE_OK);
    SAYS(texcache_texture_local_fixed(more[0], grey, &r, out, 8, &a), TEXCACHE_OK);
    /* a file that shows a fault, one that is gone, a pipe and a link in its place */
    SAYS(texcache_get_info(pass, cut, &info, &a), TEXCACHE_BAD_FILE);
    IS(a.detail == 12 && a.part == 0 && a.value == 0);
    SAYS(texcache_find(cache, "gone.tif", &gone), TEXCACHE_OK);
    snprintf(path, sizeof path, "%s/gone.tif", folder);
    unlink(path);
    SAYS(texcache_get_info(pass, gone, &info, &a), TEXCACHE_READ_FAULT);
    snprintf(path, sizeof path, "%s/pipe.tif", folder);
    unlink(path);
    mkfifo(path, 0600);
    SAYS(texcache_get_info(pass, pipe, &info, &a), TEXCACHE_READ_FAULT);
    unlink(path);
    snprintf(path, sizeof path, "%s/link.tif", folder);
    unlink(path);
    if (symlink("grey.tif", path)) exit(2);
    SAYS(texcache_get_info(pass, link, &info, &a), TEXCACHE_OK);
    /* a file that vanishes after its version was checked and before it is read: cached texels are still answered */
    SAYS(texcache_get_info(pass, late, &info, &a), TEXCACHE_OK);
    snprintf(path, sizeof path, "%s/late.tif", folder);
    unlink(path);
    SAYS(texcache_get_info(pass, late, &info, &a), TEXCACHE_OK);
    SAYS(texcache_texture_fixed(pass, late, &r, out, 8, &a), TEXCACHE_READ_FAULT);
    SAYS(texcache_invalidate(pass, late, false, &a), TEXCACHE_READ_FAULT);
    write_file(folder, "late.tif", bytes, size);
    SAYS(texcache_texture_fixed(pass, late, &r, out, 8, &a), TEXCACHE_OK);
    IS(out[0] == 1799);
    /* a file that changes, or vanishes, after the library asked for bytes and before they are supplied */
    SAYS(texcache_invalidate(pass, late, true, &a), TEXCACHE_OK);
    while (tex_c_texture(pass->held, &pass->held, late, &r, out, 8, &need) == TEXCACHE_NEEDED && need.need == 1) texc_supply(pass, &need);
    IS(need.need == 2 && need.need_file == late);
    uint32_t before = need.need_generation;
    picture(bytes, 11);
    wait_a_little();
    write_file(folder, "late.tif", bytes, size);
    texc_supply(pass, &need);
    SAYS(texcache_texture_fixed(pass, late, &r, out, 8, &a), TEXCACHE_OK);
    IS(out[0] == 11 * 257 && a.generation > before);
    SAYS(texcache_invalidate(pass, late, true, &a), TEXCACHE_OK);
    while (tex_c_texture(pass->held, &pass->held, late, &r, out, 8, &need) == TEXCACHE_NEEDED && need.need == 1) texc_supply(pass, &need);
    IS(need.need == 2 && need.need_file == late);
    unlink(path);
    texc_supply(pass, &need);
    SAYS(tex_c_texture(pass->held, &pass->held, late, &r, out, 8, &need), TEXCACHE_READ_FAULT);
    /* a file that is cut short meanwhile */
    write_file(folder, "late.tif", bytes, size);
    while (tex_c_texture(pass->held, &pass->held, late, &r, out, 8, &need) == TEXCACHE_NEEDED && need.need == 1) texc_supply(pass, &need);
    IS(need.need == 2 && need.need_file == late);
    wait_a_little();
    write_file(folder, "late.tif", bytes, size - 30);
    texc_supply(pass, &need);
    SAYS(texcache_texture_fixed(pass, late, &r, out, 8, &a), TEXCACHE_BAD_FILE);
    IS(a.detail == 12);
    picture(bytes, 7);
    /* holds */
    SAYS(texcache_release_tile(pass, 0), TEXCACHE_NOTHING_HELD);
    SAYS(texcache_tile_at(pass, 0, &tile), TEXCACHE_NOTHING_HELD);
    SAYS(texcache_get_tile(pass, grey, 0, 8, 0, &a), TEXCACHE_OUTSIDE);
    for (int i = 0; i < 4; i++) SAYS(texcache_get_tile(pass, grey, 0, 7, 7, &a), TEXCACHE_OK);
    SAYS(texcache_get_tile(pass, grey, 0, 7, 7, &a), TEXCACHE_HOLDS_FULL);
    SAYS(texcache_tile_at(pass, 3, &tile), TEXCACHE_OK);
    IS(tile.x == 0 && tile.y == 0 && tile.w == 8 && tile.h == 8 && tile.channels == 1);
    SAYS(texcache_tile_texels(pass, 3, out, 63), TEXCACHE_SMALL_BUFFER);
    SAYS(texcache_tile_texels(pass, 3, out, 64), TEXCACHE_OK);
    IS(out[0] == 7 && out[63] == 7);
    SAYS(texcache_release_tile(pass, 4), TEXCACHE_NOTHING_HELD);
    SAYS(texcache_release_tile(pass, 0), TEXCACHE_OK);
    SAYS(texcache_tile_at(pass, 3, &tile), TEXCACHE_NOTHING_HELD);
    /* a replaced file is noticed when its version is checked */
    size = picture(bytes, 9);
    wait_a_little();
    write_file(folder, "grey.tif", bytes, size);
    SAYS(texcache_texture_fixed(pass, grey, &r, out, 8, &a), TEXCACHE_OK);
    IS(out[0] == 1799 && a.generation == 1);
    SAYS(texcache_invalidate_all(pass, &a), TEXCACHE_OK);
    SAYS(texcache_texture_fixed(pass, grey, &r, out, 8, &a), TEXCACHE_OK);
    IS(out[0] == 9 * 257 && a.generation == 2);
    SAYS(texcache_tile_texels(pass, 0, out, 64), TEXCACHE_OK);
    IS(out[0] == 7);
    /* counts */
    texcache_statistics stats;
    texcache_shard shard;
    SAYS(texcache_stats(pass, &stats), TEXCACHE_OK);
    IS(stats.pass.holds == 3 && stats.pass.needs >= stats.pass.hits && stats.opens > 0 && stats.reads > 0);
    SAYS(texcache_shard_stats(pass, stats.pass.shards, &shard), TEXCACHE_NO_PART);
    SAYS(texcache_shard_stats(pass, 0, &shard), TEXCACHE_OK);
    IS(shard.share == o.budget / 16 && shard.loose <= shard.share);
    /* ends */
    SAYS(texcache_end(&pass), TEXCACHE_OK);
    SAYS(texcache_end(&pass), TEXCACHE_BAD_ARGUMENT);
    SAYS(texcache_new_pass(cache, &pass), TEXCACHE_OK);
    SAYS(texcache_tile_at(pass, 0, &tile), TEXCACHE_NOTHING_HELD);
    SAYS(texcache_end(&pass), TEXCACHE_OK);
    SAYS(texcache_end(&more[0]), TEXCACHE_OK);
    SAYS(texcache_close(&cache), TEXCACHE_OK);
    SAYS(texcache_close(&cache), TEXCACHE_BAD_ARGUMENT);
}

/* Which version was found, opened and read: each of a stamp's five numbers counts. */
static void versions(void)
{
    texcache_version_seen known = {0};
    texcache_stamp stamp = {1, 2, 3, 4, 5}, other;
    uint64_t *numbers[] = {&other.device, &other.inode, &other.size, &other.modified, &other.changed};
    IS(tex_c_opened(&known, &stamp) == 0 && !tex_c_may_answer(&known, 0, 0));
    IS(tex_c_found(&known, &stamp) == 1 && known.generation == 1 && !memcmp(&known.stamp, &stamp, sizeof stamp));
    IS(tex_c_found(&known, &stamp) == 0 && known.generation == 1 && tex_c_opened(&known, &stamp) == 1);
    for (uint32_t i = 0; i < 5; i++) {
        other = stamp;
        ++*numbers[i];
        IS(tex_c_opened(&known, &other) == 0);
        IS(tex_c_found(&known, &other) == 1 && known.generation == 2 * i + 2);
        IS(tex_c_found(&known, &stamp) == 1 && known.generation == 2 * i + 3);
    }
    IS(tex_c_may_answer(&known, 11, 11) && !tex_c_may_answer(&known, 10, 11) && !tex_c_may_answer(&known, 10, 10));
    known.generation = 1048575;
    other = stamp;
    other.size++;
    IS(tex_c_found(&known, &stamp) == 0 && tex_c_found(&known, &other) == 2 && known.stamp.size == 3);
}

int main(int count, char **words)
{
    if (count != 2) return 2;
    versions();
    by_hand();
    rows_by_hand();
    options_out_of_range(words[1]);
    over_a_folder(words[1]);
    printf("%d failed\n", failures);
    return failures != 0;
}
