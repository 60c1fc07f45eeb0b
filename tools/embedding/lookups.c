/* Lookups on doubles: lookups FOLDER, an empty folder that it may write to. Ranges and bad use; many lookups equal as
 * many single ones, by one thread and by eight; and files that are replaced or vanish between two parts of a call. */
#define _XOPEN_SOURCE 700
#include "texcache_inside.h"
#include <math.h>
#include <stdio.h>
#include <stdlib.h>
#include <string.h>
#include <unistd.h>

enum { WIDTH = 300, HEIGHT = 200, CHANNELS = 3, HEAD = 140, MOST = 200, THREADS = 8 };

uint32_t __real_tex_c_texture_many(texcache_held from, texcache_held *to, const texcache_batch *batch,
                                   const texcache_place *places, size_t count, uint16_t *out, size_t room,
                                   texcache_batch_answer *answer);
uint32_t __wrap_tex_c_texture_many(texcache_held from, texcache_held *to, const texcache_batch *batch,
                                   const texcache_place *places, size_t count, uint16_t *out, size_t room,
                                   texcache_batch_answer *answer);

static int failures;
static const char *folder;
static texcache *cache;
static void (*between)(unsigned call, const uint16_t *out);  /* called before each call of the library for many lookups */
static unsigned calls;

#define SAYS(call, wanted)                                                                                           \
    do {                                                                                                             \
        int said = (int)(call);                                                                                      \
        if (said != (wanted)) {                                                                                      \
            printf("line %d: %s is '%s', wanted '%s'\n", __LINE__, #call, texcache_error_string(said),                \
                   texcache_error_string(wanted));                                                                   \
            __atomic_fetch_add(&failures, 1, __ATOMIC_RELAXED);                                                      \
        }                                                                                                            \
    } while (0)

#define IS(holds)                                                   \
    do {                                                            \
        if (!(holds)) {                                             \
            printf("line %d: not so: %s\n", __LINE__, #holds);      \
            __atomic_fetch_add(&failures, 1, __ATOMIC_RELAXED);     \
        }                                                           \
    } while (0)

uint32_t __wrap_tex_c_texture_many(texcache_held from, texcache_held *to, const texcache_batch *batch,
                                   const texcache_place *places, size_t count, uint16_t *out, size_t room,
                                   texcache_batch_answer *answer)
{
    if (between) between(calls++, out);
    return __real_tex_c_texture_many(from, to, batch, places, count, out, room, answer);
}

/* Writes a picture of 300 by 200 in strips of 20 rows, noise or one value, with `more` bytes behind it. It takes the
 * place of the file of that name by a rename. */
static void put(const char *name, int value, size_t more)
{
    static const uint32_t tags[9][3] = {{256, 3, WIDTH}, {257, 3, HEIGHT}, {258, 3, 0}, {259, 3, 1}, {262, 3, 2},
                                        {273, 4, 0},     {277, 3, CHANNELS}, {278, 3, 20}, {279, 4, 0}};
    static uint8_t bytes[HEAD + 80 + WIDTH * HEIGHT * CHANNELS + 2000];
    char to[4096], part[4096];
    size_t data = HEAD + 80, size = data + WIDTH * HEIGHT * CHANNELS;
    memset(bytes, 0, sizeof bytes);
    memcpy(bytes, "II*\0\10\0\0\0\11", 9);
    for (int i = 0; i < 9; i++) {
        uint8_t *at = bytes + 10 + 12 * i;
        uint32_t count = tags[i][0] == 258 ? CHANNELS : tags[i][2] ? 1 : HEIGHT / 20, given = tags[i][2];
        if (tags[i][0] == 258) given = 124;
        if (tags[i][0] == 273) given = HEAD;
        if (tags[i][0] == 279) given = HEAD + 40;
        at[0] = (uint8_t)tags[i][0], at[1] = (uint8_t)(tags[i][0] >> 8), at[2] = (uint8_t)tags[i][1], at[4] = (uint8_t)count;
        for (int k = 0; k < 4; k++) at[8 + k] = (uint8_t)(given >> 8 * k);
    }
    bytes[124] = bytes[126] = bytes[128] = 8;
    for (int i = 0; i < HEIGHT / 20; i++)
        for (int k = 0; k < 4; k++) {
            bytes[HEAD + 4 * i + k] = (uint8_t)((data + i * 20 * WIDTH * CHANNELS) >> 8 * k);
            bytes[HEAD + 40 + 4 * i + k] = (uint8_t)((20 * WIDTH * CHANNELS) >> 8 * k);
        }
    uint32_t noise = 1;
    for (size_t i = data; i < size; i++) {
        noise = noise * 1664525u + 1013904223u;
        bytes[i] = (uint8_t)(value < 0 ? noise >> 24 : (uint32_t)value);
    }
    snprintf(to, sizeof to, "%s/%s", folder, name);
    snprintf(part, sizeof part, "%s/part", folder);
    FILE *file = fopen(part, "wb");
    if (!file || fwrite(bytes, 1, size + more, file) != size + more || fclose(file) || rename(part, to)) exit(2);
}

static uint32_t file_of(const char *name)
{
    uint32_t file;
    if (texcache_find(cache, name, &file)) exit(2);
    return file;
}

/* ---- ranges and bad use */

static const double far = 32768, near = 16384, unit = 1 / 4294967296.0;

static void ranges(texcache_pass *pass, uint32_t file)
{
    texcache_texture_options o = texcache_default_texture_options(1);
    uint16_t out[8];
    struct { double value; int point, middle, derivative; } cases[] = {
        {0, 0, 0, 0}, {-0.0, 0, 0, 0}, {5e-324, 0, 0, 0}, {1.0 / 3, 0, 0, 0}, {-1e-30, 0, 0, 0},
        {NAN, 4, 4, 4}, {INFINITY, 4, 4, 4}, {-INFINITY, 4, 4, 4}, {1e300, 4, 4, 4}, {-1e19, 4, 4, 4}, {131072, 4, 4, 4},
        {far, 4, 4, 4}, {far - unit, 0, 4, 4}, {nextafter(far, 0), 4, 4, 4}, {-far, 0, 4, 4}, {-far - unit / 2, 0, 4, 4},
        {-far - unit, 4, 4, 4}, {near, 0, 0, 4}, {near + unit / 4, 0, 0, 4}, {near + unit / 2, 0, 4, 4},
        {near - unit, 0, 0, 0}, {nextafter(near, 0), 0, 0, 4}, {-near, 0, 0, 0}, {-near - unit / 2, 0, 0, 0},
        {-near - unit, 0, 4, 4},
    };
    for (size_t i = 0; i < sizeof cases / sizeof *cases; i++) {
        double d[6] = {0.5, 0.5, 0.01, 0, 0, 0.002};
        double v = cases[i].value;
        int said[8];
        said[0] = texcache_texture(pass, file, &o, v, 0.5, out, 8, NULL);
        said[1] = texcache_texture(pass, file, &o, 0.5, v, out, 8, NULL);
        for (int k = 0; k < 6; k++) {
            double kept = d[k];
            d[k] = v;
            said[2 + k] = texcache_texture_footprint(pass, file, &o, d[0], d[1], d[2], d[3], d[4], d[5], out, 8, NULL);
            d[k] = kept;
        }
        for (int k = 0; k < 8; k++) {
            int wanted = k < 2 ? cases[i].point : k < 4 ? cases[i].middle : cases[i].derivative;
            if (said[k] == wanted) continue;
            printf("%.17g as number %d is '%s'\n", v, k, texcache_error_string(said[k]));
            failures++;
        }
    }
    /* the level, of which those below 0 are 0 */
    double levels[] = {0, -1, -32768, 65535.99, NAN, INFINITY, -INFINITY, 65536, -32769, 1e300};
    for (int i = 0; i < 10; i++) {
        o.lod = levels[i];
        SAYS(texcache_texture(pass, file, &o, 0.5, 0.5, out, 8, NULL), i < 4 ? TEXCACHE_OK : TEXCACHE_BAD_REQUEST);
        SAYS(texcache_texture_footprint(pass, file, &o, 0.5, 0.5, 0, 0, 0, 0, out, 8, NULL), TEXCACHE_OK);
    }
}

static int is_blank(const uint16_t *out, size_t from, size_t to)
{
    while (from < to && out[from] == 0xabcd) from++;
    return from == to;
}

static void blank(uint16_t *out, size_t count)
{
    for (size_t i = 0; i < count; i++) out[i] = 0xabcd;
}

/* Each of the options out of range; buffers that are too small; NULL; a pass in use; and a bad number among many. */
static void bad_use(texcache_pass *pass, uint32_t file)
{
    enum { COUNT = 200 };
    static double numbers[6][COUNT];
    static uint16_t out[COUNT * 8 + 1];
    texcache_texture_options good = texcache_default_texture_options(3), bad;
    texcache_coordinates at = {numbers[0], numbers[1], NULL, NULL, NULL, NULL, 1}, along = at;
    texcache_answer a;
    size_t done;
    along.dsdx = numbers[2], along.dtdx = numbers[3], along.dsdy = numbers[4], along.dtdy = numbers[5];
    blank(out, sizeof out / sizeof *out);
    for (uint32_t i = 1; i <= 6; i++) {
        bad = good;
        if (i == 1) bad.swrap = 4;
        if (i == 2) bad.twrap = UINT32_MAX;
        if (i == 3) bad.channels = 9;
        if (i == 4) bad.filter = 3;
        if (i == 5) bad.lod = NAN;
        if (i == 6) bad.max_probes = 33;
        memset(&a, 255, sizeof a);
        done = 77;
        SAYS(texcache_texture_many(pass, file, &bad, i < 6 ? &at : &along, COUNT, out, COUNT * 8, &done, &a),
             TEXCACHE_BAD_REQUEST);
        IS(a.detail == i && a.value == 0 && a.generation == 0 && done == 0);
        /* the filter and the level are not those of a footprint, and its probes not those of a lookup at a place */
        SAYS(texcache_texture_many(pass, file, &bad, i < 6 ? &along : &at, 0, out, 0, &done, &a),
             i < 4 ? TEXCACHE_BAD_REQUEST : TEXCACHE_OK);
    }
    bad = good, bad.size++;
    SAYS(texcache_texture(pass, file, &bad, 0, 0, out, 8, &a), TEXCACHE_BAD_ARGUMENT);
    bad = good, bad.channels = 0;
    SAYS(texcache_texture(pass, file, &bad, 0, 0, out, 8, &a), TEXCACHE_BAD_REQUEST);
    IS(a.detail == TEXCACHE_BAD_CHANNELS);
    bad = good, bad.max_probes = 0;
    SAYS(texcache_texture_footprint(pass, file, &bad, 0, 0, 0, 0, 0, 0, out, 8, &a), TEXCACHE_BAD_REQUEST);
    IS(a.detail == TEXCACHE_BAD_MAX_PROBES);
    at.step = 0;
    SAYS(texcache_texture_many(pass, file, &good, &at, 2, out, COUNT * 8, &done, &a), TEXCACHE_BAD_REQUEST);
    IS(a.detail == TEXCACHE_BAD_STEP && done == 0);
    at.step = 1;
    SAYS(texcache_texture(pass, file, &good, 0, 0, out, 2, &a), TEXCACHE_SMALL_BUFFER);
    IS(a.value == 3);
    SAYS(texcache_texture_many(pass, file, &good, &at, COUNT, out, 3 * COUNT - 1, &done, &a), TEXCACHE_SMALL_BUFFER);
    IS(a.value == 3 * COUNT && done == 0);
    SAYS(texcache_texture(pass, 99, &good, 0, 0, out, 3, &a), TEXCACHE_NO_FILE);
    SAYS(texcache_texture_many(pass, 99, &good, &at, COUNT, out, 8 * COUNT, &done, &a), TEXCACHE_NO_FILE);
    IS(done == 0);
    SAYS(texcache_texture(NULL, file, &good, 0, 0, out, 3, &a), TEXCACHE_BAD_ARGUMENT);
    SAYS(texcache_texture(pass, file, NULL, 0, 0, out, 3, &a), TEXCACHE_BAD_ARGUMENT);
    SAYS(texcache_texture(pass, file, &good, 0, 0, NULL, 3, &a), TEXCACHE_BAD_ARGUMENT);
    SAYS(texcache_texture(NULL, file, &good, 0, 0, out, 3, NULL), TEXCACHE_BAD_ARGUMENT);
    SAYS(texcache_texture_many(pass, file, &good, NULL, 1, out, 3, &done, &a), TEXCACHE_BAD_ARGUMENT);
    for (int i = 0; i < 6; i++) {
        texcache_coordinates some = along;
        const double **each[] = {&some.s, &some.t, &some.dsdx, &some.dtdx, &some.dsdy, &some.dtdy};
        *each[i] = NULL;
        SAYS(texcache_texture_many(pass, file, &good, &some, 1, out, 3, &done, &a), TEXCACHE_BAD_ARGUMENT);
    }
    pass->state = TEXC_USED;
    memset(&a, 255, sizeof a);
    SAYS(texcache_texture(pass, file, &good, 0, 0, out, 3, &a), TEXCACHE_IN_USE);
    IS(a.generation == 0 && a.detail == 0);
    SAYS(texcache_texture_many(pass, file, &good, &at, COUNT, out, 3 * COUNT, &done, &a), TEXCACHE_IN_USE);
    IS(done == 0);
    pass->state = TEXC_FREE;
    /* a bad number at each index of many, in each of the arrays: nothing is written, before it or behind */
    const double wrong[] = {NAN, INFINITY, -INFINITY, 40000, -1e30};
    for (size_t i = 0; i < COUNT; i++)
        for (int k = 0; k < 6; k++) {
            double kept = numbers[k][i];
            numbers[k][i] = wrong[(i + (size_t)k) % 5];
            numbers[k][COUNT - 1] = i < COUNT - 1 ? NAN : numbers[k][i];
            SAYS(texcache_texture_many(pass, file, &good, k < 2 ? &at : &along, COUNT, out, 3 * COUNT, &done, &a),
                 TEXCACHE_BAD_REQUEST);
            IS(a.detail == TEXCACHE_BAD_PLACE && a.value == i && done == 0);
            numbers[k][i] = numbers[k][COUNT - 1] = kept;
        }
    IS(is_blank(out, 0, sizeof out / sizeof *out));
    /* what is behind the values of a right call is left alone */
    SAYS(texcache_texture_many(pass, file, &good, &along, COUNT, out, 8 * COUNT, &done, &a), TEXCACHE_OK);
    IS(done == COUNT && a.generation == 1 && is_blank(out, 3 * COUNT, 8 * COUNT) && !is_blank(out, 0, 3 * COUNT));
    /* no lookup at all */
    SAYS(texcache_texture_many(pass, file, &good, &at, 0, out, 0, &done, &a), TEXCACHE_OK);
    IS(done == 0 && a.generation == 1);
    IS(texcache_float(65535) == 1 && texcache_float(0) == 0);
    float two[2];
    texcache_floats(out, 2, two);
    IS(two[0] == texcache_float(out[0]) && two[1] == texcache_float(out[1]));
}

/* ---- many are as many single ones */

typedef struct six {
    double s, t, dsdx, dtdx, dsdy, dtdy;
} six;

static double drawn(uint64_t *random)
{
    *random = *random * 6364136223846793005u + 1442695040888963407u;
    return (double)(*random >> 11) / 9007199254740992.0;
}

static void draw(six *places, size_t count, uint64_t *random)
{
    for (size_t i = 0; i < count; i++) {
        double size = exp2(-14 * drawn(random));
        places[i] = (six){4 * drawn(random) - 2, 4 * drawn(random) - 2, size * (drawn(random) - 0.5),
                          size * (drawn(random) - 0.5), size * (drawn(random) - 0.5), size * (drawn(random) - 0.5)};
    }
}

static texcache_texture_options draw_options(uint64_t *random)
{
    texcache_texture_options o = texcache_default_texture_options(1 + (uint32_t)(8 * drawn(random)));
    o.swrap = (uint32_t)(4 * drawn(random)), o.twrap = (uint32_t)(4 * drawn(random));
    o.filter = (uint32_t)(3 * drawn(random)), o.lod = 10 * drawn(random) - 1;
    o.max_probes = 1 + (uint32_t)(32 * drawn(random));
    return o;
}

static void many_as_single(texcache_pass *pass, uint32_t file, uint64_t random)
{
    static const size_t counts[] = {1, 63, 64, 65, 128, 129, MOST};
    six *places = malloc(MOST * sizeof *places);
    double *apart = malloc(6 * MOST * sizeof *apart);
    uint16_t *many = malloc(8 * MOST * sizeof *many), *again = malloc(8 * MOST * sizeof *again), one[8];
    for (size_t n = 0; n < sizeof counts / sizeof *counts; n++)
        for (int is_footprint = 0; is_footprint < 2; is_footprint++) {
            size_t count = counts[n], done, wrong = 0;
            texcache_texture_options o = draw_options(&random);
            draw(places, count, &random);
            for (size_t i = 0; i < 6 * count; i++) apart[i % 6 * MOST + i / 6] = (&places[0].s)[i];
            texcache_coordinates at = {&places->s, &places->t, &places->dsdx, &places->dtdx, &places->dsdy, &places->dtdy, 6};
            texcache_coordinates by = {apart, apart + MOST, apart + 2 * MOST, apart + 3 * MOST, apart + 4 * MOST,
                                       apart + 5 * MOST, 1};
            if (!is_footprint)
                at.dsdx = at.dtdx = at.dsdy = at.dtdy = by.dsdx = by.dtdx = by.dsdy = by.dtdy = NULL;
            texcache_answer a;
            SAYS(texcache_texture_many(pass, file, &o, &at, count, many, count * o.channels, &done, &a), TEXCACHE_OK);
            IS(done == count && a.generation == 1);
            SAYS(texcache_texture_many(pass, file, &o, &by, count, again, count * o.channels, NULL, NULL), TEXCACHE_OK);
            IS(!memcmp(many, again, count * o.channels * sizeof *many));
            for (size_t i = 0; i < count; i++) {
                six *p = &places[i];
                if (is_footprint)
                    SAYS(texcache_texture_footprint(pass, file, &o, p->s, p->t, p->dsdx, p->dtdx, p->dsdy, p->dtdy, one, 8, &a),
                         TEXCACHE_OK);
                else SAYS(texcache_texture(pass, file, &o, p->s, p->t, one, 8, &a), TEXCACHE_OK);
                wrong += memcmp(one, many + i * o.channels, o.channels * sizeof *one) != 0;
            }
            IS(!wrong);
        }
    free(places);
    free(apart);
    free(many);
    free(again);
}

/* Coordinates in 1/65536 are those of the calls that end in _fixed. */
static void as_fixed(texcache_pass *pass, uint32_t file)
{
    uint64_t random = 7;
    for (int i = 0; i < 2000; i++) {
        texcache_texture_options o = draw_options(&random);
        texcache_lookup r = {(int32_t)(262144 * drawn(&random)) - 131072, (int32_t)(262144 * drawn(&random)) - 131072,
                             (uint32_t)(700000 * drawn(&random)), o.swrap, o.twrap, o.filter, o.channels, 0, 0, 0, 0};
        uint16_t one[8] = {0}, two[8] = {0};
        o.lod = r.lod / 65536.0;
        SAYS(texcache_texture_fixed(pass, file, &r, one, 8, NULL), TEXCACHE_OK);
        SAYS(texcache_texture(pass, file, &o, r.s / 65536.0, r.t / 65536.0, two, 8, NULL), TEXCACHE_OK);
        IS(!memcmp(one, two, sizeof one));
    }
}

static void *thread(void *given)
{
    texcache_pass *pass;
    if (texcache_new_pass(cache, &pass)) exit(2);
    many_as_single(pass, file_of("noise.tif"), 100 + (uintptr_t)given);
    texcache_end(&pass);
    return NULL;
}

/* ---- files that are replaced, or vanish, between two parts */

enum { COUNT = 300 };

static texcache_pass *other;
static uint16_t out[COUNT];
static unsigned first_call, last_call;

/* Replaces flat.tif, and another pass looks at it. The value of generation g is g, and its file is g bytes longer. */
static void replace(void)
{
    texcache_answer a;
    uint32_t file = file_of("flat.tif"), next = cache->files[file].known.generation + 1;
    put("flat.tif", (int)(next % 251), next);
    SAYS(texcache_invalidate(other, file, false, &a), TEXCACHE_OK);
    IS(a.generation == next);
}

static void replace_at(unsigned call, const uint16_t *at)
{
    (void)at;
    if (call >= first_call && call <= last_call) replace();
}

/* Each time that the first part is answered. */
static void replace_each(unsigned call, const uint16_t *at)
{
    static const uint16_t *latest;
    if (call && latest == out && at != out) replace();
    latest = at;
}

static void vanish(unsigned call, const uint16_t *at)
{
    char path[4096];
    (void)at;
    if (call != first_call) return;
    snprintf(path, sizeof path, "%s/gone.tif", folder);
    unlink(path);
}

static void replaced(texcache_pass *pass)
{
    static double s[COUNT], t[COUNT];
    texcache_coordinates at = {s, t, NULL, NULL, NULL, NULL, 1};
    texcache_texture_options o = texcache_default_texture_options(1);
    texcache_answer a;
    size_t done, wrong = 0;
    uint32_t flat = file_of("flat.tif"), gone = file_of("gone.tif");
    for (int i = 0; i < COUNT; i++) s[i] = t[i] = i < 64 ? 0.1 : 0.9;
    SAYS(texcache_texture_many(pass, flat, &o, &at, COUNT, out, COUNT, &done, &a), TEXCACHE_OK);
    IS(a.generation == 1 && done == COUNT);
    /* once: all values are of the new generation */
    between = replace_at, calls = 0, first_call = last_call = 2;
    SAYS(texcache_texture_many(pass, flat, &o, &at, COUNT, out, COUNT, &done, &a), TEXCACHE_OK);
    for (int i = 0; i < COUNT; i++) wrong += out[i] != 2 * 257;
    IS(a.generation == 2 && done == COUNT && !wrong && calls >= 2 + 5);
    /* twice, also in the first part of the new beginning */
    calls = 0, first_call = 1, last_call = 2;
    SAYS(texcache_texture_many(pass, flat, &o, &at, COUNT, out, COUNT, &done, &a), TEXCACHE_OK);
    wrong = 0;
    for (int i = 0; i < COUNT; i++) wrong += out[i] != a.generation * 257;
    IS(a.generation == 4 && done == COUNT && !wrong);
    /* each time: the first lookups stand, of the generation that the answer names */
    between = replace_each, calls = 0;
    SAYS(texcache_texture_many(pass, flat, &o, &at, COUNT, out, COUNT, &done, &a), TEXCACHE_AGAIN);
    wrong = 0;
    for (size_t i = 0; i < done; i++) wrong += out[i] != a.generation % 251 * 257;
    IS(done > 0 && done < COUNT && !wrong && a.newer > a.generation && a.generation > 64);
    /* while a single part is read */
    between = replace_at, calls = 0, first_call = 1, last_call = 3;
    SAYS(texcache_texture_many(pass, flat, &o, &at, 64, out, COUNT, &done, &a), TEXCACHE_OK);
    wrong = 0;
    for (int i = 0; i < 64; i++) wrong += out[i] != a.generation % 251 * 257;
    IS(done == 64 && !wrong);
    between = NULL;
    SAYS(texcache_texture_many(pass, flat, &o, &at, COUNT, out, COUNT, &done, &a), TEXCACHE_OK);
    IS(done == COUNT);
    /* a file that vanishes: what was looked up before stands, and the rest is not written */
    for (int i = 0; i < COUNT; i++) s[i] = t[i] = i < 100 ? 0.1 : 0.9;
    SAYS(texcache_texture(pass, gone, &o, 0.1, 0.1, out, 1, &a), TEXCACHE_OK);
    uint32_t generation = a.generation;
    between = vanish, calls = 0, first_call = 1;
    blank(out, COUNT);
    SAYS(texcache_texture_many(pass, gone, &o, &at, COUNT, out, COUNT, &done, &a), TEXCACHE_READ_FAULT);
    wrong = 0;
    for (int i = 0; i < 100; i++) wrong += out[i] != 9 * 257;
    IS(done == 100 && !wrong && a.generation == generation && is_blank(out, 100, COUNT));
    between = NULL;
}

int main(int count, char **words)
{
    pthread_t ids[THREADS];
    texcache_pass *pass;
    texcache_options options = texcache_default_options();
    if (count != 2) return 2;
    folder = words[1];
    put("noise.tif", -1, 0);
    put("flat.tif", 1, 1);
    put("gone.tif", 9, 0);
    options.budget = 500000;
    if (texcache_open(&cache, folder, &options) || texcache_new_pass(cache, &pass) || texcache_new_pass(cache, &other)) return 2;
    ranges(pass, file_of("noise.tif"));
    bad_use(pass, file_of("noise.tif"));
    as_fixed(pass, file_of("noise.tif"));
    many_as_single(pass, file_of("noise.tif"), 1);
    replaced(pass);
    for (uintptr_t i = 0; i < THREADS; i++) pthread_create(&ids[i], NULL, thread, (void *)i);
    for (int i = 0; i < THREADS; i++) pthread_join(ids[i], NULL);
    texcache_end(&other);
    texcache_end(&pass);
    SAYS(texcache_close(&cache), TEXCACHE_OK);
    printf("%d failed\n", failures);
    return failures != 0;
}
