/* Sets of files by names with marks like <UDIM>: udim FOLDER, an empty folder that it may write to. Each lookup is that of
 * its tile's file at the rest of s and t; tiles are listed, missing ones are errors or have the missing colour. */
#define _XOPEN_SOURCE 700
#include "images.h"
#include <errno.h>
#include <math.h>
#include <pthread.h>
#include <sys/stat.h>
#include <time.h>
#include <unistd.h>

enum { SIDE = 32, MANY = 500, THREADS = 8, FIRST = 1001, LAST = 9999 };

static const uint32_t present[] = {1001, 1002, 1010, 1011, 1024, 9999};
enum { PRESENT = sizeof present / sizeof *present };

static texcache *cache;
static texcache_pass *pass;
static uint32_t set;
static unsigned number;

static unsigned sample(unsigned x, unsigned y, unsigned channel)
{
    return x * 7 + y * 3 + channel * 50 + number * 11;
}

static void put(const char *folder, const char *name)
{
    const image colour = {SIDE, SIDE, 3, 16, 0, sample};
    put_image(folder, name, colour);
}

static bool is_present(uint32_t tile)
{
    for (size_t i = 0; i < PRESENT; i++)
        if (present[i] == tile) return true;
    return false;
}

/* The tile at a place, by doubles: the rule of docs/REQUESTS.md. 0 if there can be none. */
static uint32_t tile_at(double s, double t)
{
    double tile = FIRST + floor(s) + 10 * floor(t);
    return s < 0 || s >= 10 || t < 0 || tile > LAST ? 0 : (uint32_t)tile;
}

/* Whether the text of the latest error has some words. */
static bool tells(const char *words)
{
    if (strstr(texcache_last_error(), words)) return true;
    printf("says '%s', wanted '%s'\n", texcache_last_error(), words);
    return false;
}

static void names(const char *folder)
{
    uint32_t again, file, tiles[10], none;
    size_t count = 0;
    SAYS(texcache_find(cache, "sub/../wall.<UDIM>.tif", &again), TEXCACHE_OK);
    IS(again == set && set >= 0x80000000u && !strcmp(texcache_file_name(cache, set), "wall.<UDIM>.tif"));
    IS(texcache_is_udim(cache, set) && !texcache_is_udim(cache, 0) && !texcache_is_udim(cache, UINT32_MAX) && !texcache_is_udim(NULL, set));
    SAYS(texcache_udim_tiles(cache, set, tiles, 10, &count), TEXCACHE_OK);
    IS(count == PRESENT && !memcmp(tiles, present, sizeof present));
    SAYS(texcache_udim_tiles(cache, set, NULL, 0, &count), TEXCACHE_SMALL_BUFFER);
    IS(count == PRESENT && tells("room for 0 numbers, and 6 are needed"));
    SAYS(texcache_udim_tiles(cache, set, NULL, 1, &count), TEXCACHE_BAD_ARGUMENT);
    SAYS(texcache_udim_tiles(cache, 0, tiles, 10, &count), TEXCACHE_BAD_ARGUMENT);
    SAYS(texcache_udim_tiles(cache, set + 999, tiles, 10, &count), TEXCACHE_BAD_ARGUMENT);
    SAYS(texcache_udim_file(cache, set, 1011, &file), TEXCACHE_OK);
    IS(file == file_of(cache, "wall.1011.tif"));
    SAYS(texcache_udim_file(cache, set, 1003, &none), TEXCACHE_NO_TILE);
    IS(tells("wall.<UDIM>.tif: tile 1003: no plain file") && tells(strerror(ENOENT)));
    SAYS(texcache_udim_file(cache, set, 1000, &none), TEXCACHE_NO_TILE);
    SAYS(texcache_udim_file(cache, set, 10000, &none), TEXCACHE_NO_TILE);
    SAYS(texcache_udim_file(cache, set, 1001, NULL), TEXCACHE_BAD_ARGUMENT);
    SAYS(texcache_find(cache, "moon.<UDIM>.tif", &none), TEXCACHE_NO_NAME);
    IS(tells("moon.<UDIM>.tif: no tile of this name is found"));
    /* the mark in a folder's name, a set without its first tile, and only the first <UDIM> counts */
    SAYS(texcache_find(cache, "<UDIM>/deep.tif", &none), TEXCACHE_OK);
    SAYS(texcache_udim_tiles(cache, none, tiles, 10, &count), TEXCACHE_OK);
    IS(count == 1 && tiles[0] == 1057);
    number = 3;
    put(folder, "twice.1001.<UDIM>.tif");
    SAYS(texcache_find(cache, "twice.<UDIM>.<UDIM>.tif", &none), TEXCACHE_OK);
}

/* Each mark with the names of its tiles at u and v of 0 0, 1 0, 2 3 and 9 12, as OpenImageIO 2.4 names them. Files with names
 * that look alike are there too. */
static void marks(const char *folder)
{
    static const struct {
        const char *name, *files[4], *others[3];
    } cases[] = {
        {"a.%(UDIM)d.tif", {"a.1001.tif", "a.1002.tif", "a.1033.tif", "a.1130.tif"}, {"a.101.tif", "a.10010.tif", "a.0999.tif"}},
        {"b_<u>_<v>.tif", {"b_u0_v0.tif", "b_u1_v0.tif", "b_u2_v3.tif", "b_u9_v12.tif"}, {"b_u10_v0.tif", "b_u00_v1.tif", "b_u3_v03.tif"}},
        {"c<V><U>.tif", {"cv1u1.tif", "cv1u2.tif", "cv4u3.tif", "cv13u10.tif"}, {"cv0u1.tif", "cv1u11.tif", "cv1u0.tif"}},
        {"<uvtile>.d.tif", {"u0_v0.d.tif", "u1_v0.d.tif", "u2_v3.d.tif", "u9_v12.d.tif"}, {"u0v0.d.tif", "u1_v900.d.tif", "u1_v.d.tif"}},
        {"e<UVTILE>", {"eu1_v1", "eu2_v1", "eu3_v4", "eu10_v13"}, {"eu1_v1.tif", "eu1", "eu-1_v1"}},
        {"f_u##v##.tif", {"f_u00v00.tif", "f_u01v00.tif", "f_u02v03.tif", "f_u09v12.tif"}, {"f_u0v0.tif", "f_u1v10.tif", "f_u10v00.tif"}},
        {"<u>/g<v><u>", {"u0/gv0u0", "u1/gv0u1", "u2/gv3u2", "u9/gv12u9"}, {"u0/gv0u1", "u0/gv1u1", "u0/gv9u2"}}};
    static const double places[4][2] = {{0.25, 0.5}, {1.25, 0.5}, {2.25, 3.5}, {9.25, 12.5}};
    static const uint32_t wanted[4] = {1001, 1002, 1033, 1130};
    const texcache_texture_options o = texcache_default_texture_options(3);
    uint32_t tiles[10], found, file;
    size_t listed;
    for (int k = 0; k < 4; k++) {
        char name[4200];
        snprintf(name, sizeof name, "%s/%s", folder, (const char *const[]){"u0", "u1", "u2", "u9"}[k]);
        if (mkdir(name, 0700)) exit(2);
    }
    for (size_t i = 0; i < sizeof cases / sizeof *cases; i++) {
        for (unsigned k = 0; k < 4; k++) number = k + 1, put(folder, cases[i].files[k]);
        for (unsigned k = 0; k < 3; k++) number = 9, put(folder, cases[i].others[k]);
        SAYS(texcache_find(cache, cases[i].name, &found), TEXCACHE_OK);
        IS(texcache_is_udim(cache, found) && !strcmp(texcache_file_name(cache, found), cases[i].name));
        for (unsigned k = 0; k < 4; k++) {
            uint16_t values[3] = {0};
            SAYS(texcache_texture(pass, found, &o, places[k][0], places[k][1], values, 3, NULL), TEXCACHE_OK);
            /* halfway between the texels 7 and 8 across, 15 and 16 down */
            number = k + 1;
            IS(values[1] == (257 * (sample(7, 15, 1) + sample(8, 16, 1)) + 1) / 2);
            SAYS(texcache_udim_file(cache, found, wanted[k], &file), TEXCACHE_OK);
            IS(!strcmp(texcache_file_name(cache, file), cases[i].files[k]));
        }
        SAYS(texcache_udim_file(cache, found, 1003, &file), TEXCACHE_NO_TILE);
        /* in the last case u and v are not in one part of the path, so only tiles that were asked for are known */
        SAYS(texcache_udim_tiles(cache, found, tiles, 10, &listed), TEXCACHE_OK);
        IS(listed == 4 && !memcmp(tiles, wanted, sizeof wanted));
    }
    /* a set that lacks its first tile is found by the names in its folder */
    static const char *const later[][2] = {{"h<UVTILE>", "hu3_v2"}, {"i_u##v##", "i_u02v01"}, {"j<v>_<u>", "jv1_u2"}};
    for (size_t i = 0; i < 3; i++) {
        put(folder, later[i][1]);
        SAYS(texcache_find(cache, later[i][0], &found), TEXCACHE_OK);
        SAYS(texcache_udim_tiles(cache, found, tiles, 10, &listed), TEXCACHE_OK);
        IS(listed == 1 && tiles[0] == 1013);
    }
    /* a name with marks for u or v alone is that of a file */
    SAYS(texcache_find(cache, "k<u>.tif", &found), TEXCACHE_NO_NAME);
    IS(tells("k<u>.tif: no plain file is found"));
    put(folder, "k<U>.tif");
    SAYS(texcache_find(cache, "k<U>.tif", &found), TEXCACHE_OK);
    IS(!texcache_is_udim(cache, found));
    /* beside <UDIM> the others are text */
    put(folder, "l.1001.<u><v>.tif");
    SAYS(texcache_find(cache, "l.<UDIM>.<u><v>.tif", &found), TEXCACHE_OK);
    SAYS(texcache_udim_tiles(cache, found, tiles, 10, &listed), TEXCACHE_OK);
    IS(listed == 1 && tiles[0] == 1001);
    /* names that are too long */
    static char name[5000];
    memset(name, 'm', sizeof name - 1);
    memcpy(name, "<u><v>", 6);
    SAYS(texcache_find(cache, name, &found), TEXCACHE_NO_NAME);
    name[4080] = 0;
    SAYS(texcache_find(cache, name, &found), TEXCACHE_NO_NAME);
}

/* A lookup in the set is that in the tile's file, at the rest. */
static void one_lookup(const texcache_texture_options *o, double s, double t)
{
    uint16_t values[3] = {1, 2, 3}, wanted[3] = {4, 5, 6};
    float floats[3], wanted_floats[3];
    texcache_answer a, b;
    uint32_t tile = tile_at(s, t), file;
    int status = texcache_texture_footprint(pass, set, o, s, t, 0.02, 0.001, 0.003, 0.01, values, 3, &a);
    if (!is_present(tile)) {
        IS(status == TEXCACHE_NO_TILE && a.detail == tile && values[0] == 1);
        return;
    }
    SAYS(texcache_udim_file(cache, set, tile, &file), TEXCACHE_OK);
    SAYS(status, TEXCACHE_OK);
    s -= floor(s), t -= floor(t);
    SAYS(texcache_texture_footprint(pass, file, o, s, t, 0.02, 0.001, 0.003, 0.01, wanted, 3, &b), TEXCACHE_OK);
    IS(!memcmp(values, wanted, sizeof values) && a.generation == b.generation);
    s += (tile - FIRST) % 10, t += (tile - FIRST) / 10;
    SAYS(texcache_texture_float(pass, set, o, s, t, floats, 3, NULL), TEXCACHE_OK);
    SAYS(texcache_texture_float(pass, file, o, s - floor(s), t - floor(t), wanted_floats, 3, NULL), TEXCACHE_OK);
    IS(!memcmp(floats, wanted_floats, sizeof floats));
}

static void lookups(void)
{
    static const double edges[][2] = {{0, 0}, {1, 0}, {0.5, 0.999999}, {1.5, 1.5}, {2, 0}, {9.5, 0.5}, {10, 0}, {-0.0001, 0.5},
        {0.5, -0.0001}, {0.25, 1}, {8.5, 899.5}, {9.5, 899.5}, {-20000, 0.5}, {3.5, 2.25}, {0.5, 20000}};
    texcache_texture_options o = texcache_default_texture_options(3);
    o.swrap = o.twrap = TEXCACHE_CLAMP;
    for (size_t i = 0; i < sizeof edges / sizeof *edges; i++)
        if (fabs(edges[i][0]) < 16384 && fabs(edges[i][1]) < 16384) one_lookup(&o, edges[i][0], edges[i][1]);
    uint16_t values[3];
    texcache_answer a;
    /* a number out of range is that, and not a missing tile */
    SAYS(texcache_texture(pass, set, &o, 40000, 0, values, 3, &a), TEXCACHE_BAD_REQUEST);
    SAYS(texcache_texture(pass, set, &o, NAN, 0, values, 3, &a), TEXCACHE_BAD_REQUEST);
    SAYS(texcache_texture(pass, set, &o, 0.5, 0.5, values, 2, &a), TEXCACHE_SMALL_BUFFER);
    SAYS(texcache_texture(pass, set + 500, &o, 0.5, 0.5, values, 3, &a), TEXCACHE_NO_FILE);
    SAYS(texcache_texture(pass, UINT32_MAX, &o, 0.5, 0.5, values, 3, &a), TEXCACHE_NO_FILE);
    SAYS(texcache_texture(NULL, set, &o, 0.5, 0.5, values, 3, &a), TEXCACHE_BAD_ARGUMENT);
    SAYS(texcache_texture(pass, set, &o, -1, 0.5, values, 3, &a), TEXCACHE_NO_TILE);
    IS(a.detail == 0 && tells("wall.<UDIM>.tif: there is no such tile"));
    /* just below a whole number, where rounding to 1/2^32 leads into the next tile */
    SAYS(texcache_texture(pass, set, &o, 1 - 1e-12, 0.5, values, 3, &a), TEXCACHE_OK);
    uint16_t wanted[3];
    SAYS(texcache_texture(pass, file_of(cache, "wall.1002.tif"), &o, 0, 0.5, wanted, 3, &a), TEXCACHE_OK);
    IS(!memcmp(values, wanted, sizeof values));
}

/* Lookups in the units of requests: exactly those of the file at the rest. */
static void fixed(void)
{
    texcache_answer a;
    for (int i = 0; i < 4000; i++) {
        int32_t s = (int32_t)((unsigned)i * 2654435761u >> 12) - 100000, t = (int32_t)((unsigned)i * 40503u % 400000) - 60000;
        texcache_lookup r = texcache_lookup_at(s, t, 0, 3), in_tile = r;
        uint16_t values[3], wanted[3];
        uint32_t tile = tile_at(s / 65536.0, t / 65536.0), file;
        int status = texcache_texture_fixed(pass, set, &r, values, 3, &a);
        if (!is_present(tile)) {
            IS(status == TEXCACHE_NO_TILE && a.detail == tile);
            continue;
        }
        in_tile.s = s & 65535, in_tile.t = t & 65535;
        SAYS(status, TEXCACHE_OK);
        SAYS(texcache_udim_file(cache, set, tile, &file), TEXCACHE_OK);
        SAYS(texcache_texture_fixed(pass, file, &in_tile, wanted, 3, NULL), TEXCACHE_OK);
        IS(!memcmp(values, wanted, sizeof values));
        r.dsdx = in_tile.dsdx = 500, r.dtdy = in_tile.dtdy = 700;
        SAYS(texcache_texture_d_fixed(pass, set, &r, values, 3, NULL), TEXCACHE_OK);
        SAYS(texcache_texture_d_fixed(pass, file, &in_tile, wanted, 3, NULL), TEXCACHE_OK);
        IS(!memcmp(values, wanted, sizeof values));
    }
}

/* Many lookups in one call: each in its own tile. */
static void many(void)
{
    static double numbers[MANY][6];
    static uint16_t values[MANY][3], one[3];
    static float floats[MANY][3], ds[MANY][3], dt[MANY][3], single[3], single_ds[3], single_dt[3];
    const float missing[3] = {0.5f, 0.25f, 1};
    texcache_texture_options o = texcache_default_texture_options(3);
    texcache_coordinates at = {&numbers[0][0], &numbers[0][1], NULL, NULL, NULL, NULL, 6};
    texcache_results to = {sizeof to, TEXCACHE_FLOAT, 3 * MANY, floats, ds[0], dt[0]};
    texcache_answer a;
    size_t done = 9;
    to.values = floats, to.dresultds = &ds[0][0], to.dresultdt = &dt[0][0];
    for (int i = 0; i < MANY; i++) {
        numbers[i][0] = (i % 7 < 4 ? 0 : 1) + i / (double)MANY, numbers[i][1] = i / 100 % 2 + (i * 37 % MANY) / (double)MANY;
        if (tile_at(numbers[i][0], numbers[i][1]) == 1012) numbers[i][0] -= 1;
        numbers[i][2] = numbers[i][5] = 0.01;
    }
    for (int footprints = 0; footprints < 2; footprints++) {
        if (footprints) at.dsdx = &numbers[0][2], at.dtdx = &numbers[0][3], at.dsdy = &numbers[0][4], at.dtdy = &numbers[0][5];
        SAYS(texcache_texture_many(pass, set, &o, &at, MANY, values[0], 3 * MANY, &done, &a), TEXCACHE_OK);
        IS(done == MANY);
        SAYS(texcache_texture_results(pass, set, &o, &at, MANY, &to, &done, &a), TEXCACHE_OK);
        IS(done == MANY);
        for (int i = 0; i < MANY; i++) {
            texcache_coordinates point = {at.s + 6 * i, at.t + 6 * i, NULL, NULL, NULL, NULL, 1};
            texcache_results alone = {sizeof alone, TEXCACHE_FLOAT, 3, single, single_ds, single_dt};
            if (footprints)
                point.dsdx = numbers[i] + 2, point.dtdx = numbers[i] + 3, point.dsdy = numbers[i] + 4, point.dtdy = numbers[i] + 5;
            SAYS(texcache_texture_many(pass, set, &o, &point, 1, one, 3, NULL, NULL), TEXCACHE_OK);
            SAYS(texcache_texture_results(pass, set, &o, &point, 1, &alone, NULL, NULL), TEXCACHE_OK);
            IS(!memcmp(one, values[i], sizeof one) && !memcmp(single, floats[i], sizeof single));
            IS(!memcmp(single_ds, ds[i], sizeof single) && !memcmp(single_dt, dt[i], sizeof single));
        }
    }
    /* a missing tile ends the call there, or has its colour */
    numbers[300][0] = 5.5;
    at.dsdx = at.dtdx = at.dsdy = at.dtdy = NULL;
    SAYS(texcache_texture_many(pass, set, &o, &at, MANY, values[0], 3 * MANY, &done, &a), TEXCACHE_NO_TILE);
    IS(done == 300 && a.value == 300 && a.detail == tile_at(5.5, numbers[300][1]) && tells("lookup 300: tile 10"));
    o.missing_color = missing;
    SAYS(texcache_texture_results(pass, set, &o, &at, MANY, &to, &done, &a), TEXCACHE_OK);
    IS(done == MANY && !memcmp(floats[300], missing, sizeof missing) && ds[300][0] == 0);
    SAYS(texcache_texture_float(pass, set, &o, numbers[301][0], numbers[301][1], single, 3, NULL), TEXCACHE_OK);
    IS(!memcmp(single, floats[301], sizeof single));
    /* no lookup is made if a number is out of range */
    numbers[400][1] = INFINITY;
    memset(values, 7, sizeof values);
    SAYS(texcache_texture_many(pass, set, &o, &at, MANY, values[0], 3 * MANY, &done, &a), TEXCACHE_BAD_REQUEST);
    IS(done == 0 && a.value == 400 && values[0][0] == 0x707);
    SAYS(texcache_texture_many(pass, set, &o, &at, 0, values[0], 0, &done, &a), TEXCACHE_OK);
    IS(done == 0);
}

/* Calls that are for one file, replaced tiles, and tiles that come later. */
static void others(const char *folder)
{
    texcache_info info;
    texcache_region region = {0, 0, 0, 1, 1};
    texcache_texture_options o = texcache_default_texture_options(1);
    struct timespec pause = {0, 20000000};
    texcache_answer a;
    uint16_t before, after;
    SAYS(texcache_get_info(pass, set, &info, &a), TEXCACHE_NO_FILE);
    IS(tells("wall.<UDIM>.tif: this is a UDIM set: texcache_udim_file"));
    SAYS(texcache_get_pixels(pass, set, &region, &before, 1, &a), TEXCACHE_NO_FILE);
    SAYS(texcache_get_tile(pass, set, 0, 0, 0, &a), TEXCACHE_NO_FILE);
    SAYS(texcache_texture(pass, set, &o, 0.5, 0.5, &before, 1, NULL), TEXCACHE_OK);
    SAYS(texcache_texture(pass, set, &o, 4.5, 0.5, &after, 1, NULL), TEXCACHE_NO_TILE);
    nanosleep(&pause, NULL);
    number = 17;
    put(folder, "wall.1001.tif"), put(folder, "wall.1005.tif");
    SAYS(texcache_invalidate(pass, set, false, &a), TEXCACHE_OK);
    SAYS(texcache_texture(pass, set, &o, 0.5, 0.5, &after, 1, &a), TEXCACHE_OK);
    IS(after != before && a.generation == 2);
    nanosleep(&pause, NULL);
    SAYS(texcache_texture(pass, set, &o, 4.5, 0.5, &before, 1, NULL), TEXCACHE_OK);
    IS(before == after);
    char path[4096];
    snprintf(path, sizeof path, "%s/wall.1005.tif", folder);
    unlink(path);
    SAYS(texcache_invalidate(pass, set, true, &a), TEXCACHE_READ_FAULT);
    IS(a.value == 1 && a.part == file_of(cache, "wall.1005.tif") && tells("wall.1005.tif: "));
}

static void *looks_up(void *given)
{
    const texcache_texture_options o = texcache_default_texture_options(3);
    texcache_pass *own;
    texcache_answer a;
    uint32_t of;
    uint16_t values[3], wanted[3];
    if (texcache_this_thread(given, &own)) exit(2);
    SAYS(texcache_find(given, "./wall.<UDIM>.tif", &of), TEXCACHE_OK);
    for (int i = 0; i < 2000; i++) {
        double s = i % 3 + i / 2000.0, t = i / 7 % 2 + 0.25;
        int status = texcache_texture(own, of, &o, s, t, values, 3, &a);
        SAYS(status, is_present(tile_at(s, t)) ? TEXCACHE_OK : TEXCACHE_NO_TILE);
        uint32_t file;
        if (status) continue;
        SAYS(texcache_udim_file(given, of, tile_at(s, t), &file), TEXCACHE_OK);
        SAYS(texcache_texture(own, file, &o, s - floor(s), 0.25, wanted, 3, &a), TEXCACHE_OK);
        IS(!memcmp(values, wanted, sizeof values));
    }
    return NULL;
}

/* Threads find a set, and its tiles, at once. */
static void threads(const char *folder)
{
    texcache *other;
    pthread_t ids[THREADS];
    if (texcache_open(&other, folder, NULL)) exit(2);
    for (int i = 0; i < THREADS; i++)
        if (pthread_create(&ids[i], NULL, looks_up, other)) exit(2);
    for (int i = 0; i < THREADS; i++) pthread_join(ids[i], NULL);
    SAYS(texcache_close(&other), TEXCACHE_OK);
}

int main(int count, char **words)
{
    texcache_options options = texcache_default_options();
    char name[64], folder[4096];
    options.missing_ms = 10;
    if (count != 2) return 2;
    for (size_t i = 0; i < PRESENT; i++) {
        snprintf(name, sizeof name, "wall.%u.tif", (unsigned)present[i]);
        number = present[i];
        put(words[1], name);
    }
    put(words[1], "wall.1000.tif"), put(words[1], "wall.101.tif"), put(words[1], "wall.10001.tif"), put(words[1], "wall.x.tif");
    snprintf(folder, sizeof folder, "%s/1057", words[1]);
    if (mkdir(folder, 0700)) return 2;
    put(folder, "deep.tif");
    threads(words[1]);
    if (texcache_open(&cache, words[1], &options) || texcache_new_pass(cache, &pass)) return 2;
    SAYS(texcache_find(cache, "wall.<UDIM>.tif", &set), TEXCACHE_OK);
    names(words[1]);
    marks(words[1]);
    lookups();
    fixed();
    many();
    others(words[1]);
    SAYS(texcache_end(&pass), TEXCACHE_OK);
    SAYS(texcache_close(&cache), TEXCACHE_OK);
    printf("%d failed\n", failures);
    return failures != 0;
}
