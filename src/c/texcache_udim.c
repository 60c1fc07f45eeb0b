/* texcache_udim.c: sets of files, one for each unit square of s and t, by names with marks like <UDIM>. */
#define _POSIX_C_SOURCE 200809L
#include "texcache_inside.h"

#include <errno.h>
#include <stdio.h>
#include <stdlib.h>

/* The numbers of tiles, and how many of them are in a row. */
#define TEXC_FIRST_TILE 1001
#define TEXC_LAST_TILE 9999
#define TEXC_ACROSS 10
#define TEXC_TILES (TEXC_LAST_TILE - TEXC_FIRST_TILE + 1)

/* A pattern is a name in which these bytes stand for numbers of the tile; u and v count from 0 or from 1. */
enum { TEXC_NUMBER = 1, TEXC_U, TEXC_V, TEXC_U_FROM_1, TEXC_V_FROM_1, TEXC_U_WIDE, TEXC_V_WIDE, TEXC_KINDS };

/* The marks, which are OpenImageIO's, and what takes their place in a pattern. If a name has the first one, that counts once
 * and the others are text, as for the program. */
static const char *const texc_marks[][2] = {
    {"<UDIM>", "\1"}, {"%(UDIM)d", "\1"}, {"<u>", "u\2"}, {"<v>", "v\3"}, {"<U>", "u\4"}, {"<V>", "v\5"},
    {"<uvtile>", "u\2_v\3"}, {"<UVTILE>", "u\4_v\5"}, {"_u##v##", "_u\6v\7"}};
#define TEXC_MARKS (sizeof texc_marks / sizeof *texc_marks)

struct texc_set {
    uint32_t files[TEXC_TILES];  /* the number of each tile's file, and 1; 0 if it was not found so far */
    const char *pattern;         /* behind the name */
    char name[];                 /* as it was asked for */
};

/* Lookups that follow each other in one tile. */
typedef struct texc_run {
    uint32_t tile;              /* 0: no tile can be there */
    size_t count;
    double numbers[6][TEXC_PART];  /* s and t in the tile, and the derivatives */
} texc_run;

/* ---- tiles and their files */

static bool texc_is_number(char it)
{
    return it > 0 && it < TEXC_KINDS;
}

/* The mark at the beginning of a text, or TEXC_MARKS. */
static size_t texc_mark_at(const char *text)
{
    size_t k = 0;
    while (k < TEXC_MARKS && strncmp(text, texc_marks[k][0], strlen(texc_marks[k][0]))) k++;
    return k;
}

/* Makes the pattern of a name, which is never longer. Returns whether the name says the whole number of a tile. */
static bool texc_make_pattern(const char *name, char *pattern)
{
    bool has[TEXC_KINDS] = {false};
    const char *first = strstr(name, texc_marks[0][0]);
    while (*name) {
        const size_t k = !first ? texc_mark_at(name) : name == first ? 0 : TEXC_MARKS;
        if (k == TEXC_MARKS) {
            if (texc_is_number(*name)) return false;
            *pattern++ = *name++;
            continue;
        }
        for (const char *it = texc_marks[k][1]; *it; *pattern++ = *it++) has[texc_is_number(*it) ? (size_t)*it : 0] = true;
        name += strlen(texc_marks[k][0]);
    }
    *pattern = 0;
    return has[TEXC_NUMBER]
           || ((has[TEXC_U] || has[TEXC_U_FROM_1] || has[TEXC_U_WIDE]) && (has[TEXC_V] || has[TEXC_V_FROM_1] || has[TEXC_V_WIDE]));
}

/* Whether a name means a set. */
bool texc_has_mark(const char *name)
{
    char pattern[TEXC_PATH];
    return strlen(name) < sizeof pattern && texc_make_pattern(name, pattern);
}

/* Writes the name that a pattern, up to its end, has for a tile. Returns whether there was room. */
static bool texc_name_tile(const char *pattern, const char *end, uint32_t tile, char *name, size_t room)
{
    const unsigned u = (tile - TEXC_FIRST_TILE) % TEXC_ACROSS, v = (tile - TEXC_FIRST_TILE) / TEXC_ACROSS;
    const unsigned numbers[TEXC_KINDS] = {0, tile, u, v, u + 1, v + 1, u, v};
    size_t size = 0;
    for (; pattern < end && size + 1 < room; pattern++) {
        if (texc_is_number(*pattern)) {
            const int digits = *pattern >= TEXC_U_WIDE ? 2 : 1;
            const int more = snprintf(name + size, room - size, "%0*u", digits, numbers[(size_t)*pattern]);
            size += (size_t)more;
        } else {
            name[size++] = *pattern;
        }
    }
    if (size >= room) return texc_fails("the path is too long", ENAMETOOLONG);
    name[size] = 0;
    return pattern == end || texc_fails("the path is too long", ENAMETOOLONG);
}

/* The set of a number, or NULL. */
texc_set *texc_set_of(const texcache *cache, uint32_t number)
{
    if (!texc_is_set(number)) return NULL;
    return __atomic_load_n(&cache->sets[number - TEXC_FIRST_SET], __ATOMIC_ACQUIRE);
}

/* The number of the tile at whole parts of s and t, or 0 if there can be none. */
static uint32_t texc_tile_of(int64_t u, int64_t v)
{
    if (u < 0 || u >= TEXC_ACROSS || v < 0 || v > TEXC_LAST_TILE) return 0;
    int64_t tile = TEXC_FIRST_TILE + u + TEXC_ACROSS * v;
    return tile <= TEXC_LAST_TILE ? (uint32_t)tile : 0;
}

/* Finds the file of a tile. */
static int texc_find_tile(texcache *cache, texc_set *set, uint32_t tile, uint32_t *file)
{
    uint32_t *place = &set->files[tile - TEXC_FIRST_TILE];
    char name[TEXC_PATH];
    *file = __atomic_load_n(place, __ATOMIC_RELAXED) - 1;
    if (*file != TEXC_NO_FILE) return TEXCACHE_OK;
    if (!texc_name_tile(set->pattern, strchr(set->pattern, 0), tile, name, sizeof name)) return TEXCACHE_NO_TILE;
    int status = texc_find_file(cache, name, file);
    if (!status) __atomic_store_n(place, *file + 1, __ATOMIC_RELAXED);
    return status == TEXCACHE_NO_NAME ? TEXCACHE_NO_TILE : status;
}

/* Reads a number of at most `most` digits and goes behind it. */
static uint32_t texc_read_number(const char **text, int most)
{
    uint32_t value = 0;
    for (; most && **text >= '0' && **text <= '9'; most--) value = 10 * value + (uint32_t)(*(*text)++ - '0');
    return value;
}

/* The tile for which a part of a pattern has a name, or 0. */
static uint32_t texc_tile_named(const char *name, const char *part, const char *end)
{
    static const int digits[TEXC_KINDS] = {0, 4, 1, 3, 2, 3, 2, 3};
    uint32_t tile = 0, u = TEXC_ACROSS, v = 0;
    char again[TEXC_PATH];
    const char *at = name;
    for (const char *it = part; it < end; it++) {
        if (!texc_is_number(*it)) {
            if (*at++ != *it) return 0;
            continue;
        }
        const uint32_t value = texc_read_number(&at, digits[(size_t)*it]);
        if (*it == TEXC_NUMBER) tile = value;
        else if (*it == TEXC_U || *it == TEXC_U_WIDE) u = value;
        else if (*it == TEXC_U_FROM_1) u = value - 1;
        else v = *it == TEXC_V_FROM_1 ? value - 1 : value;
    }
    if (!tile) tile = texc_tile_of(u, v);
    /* other spellings of the numbers, and different ones, are other names */
    const bool is_one = tile >= TEXC_FIRST_TILE && tile <= TEXC_LAST_TILE;
    return is_one && texc_name_tile(part, end, tile, again, sizeof again) && !strcmp(again, name) ? tile : 0;
}

/* What texc_each_name calls. */
typedef struct texc_listing {
    texcache *cache;
    texc_set *set;
    const char *part, *end;   /* the part of the pattern that has the first number */
    int status;
} texc_listing;

static void texc_take_name(void *given, const char *name)
{
    texc_listing *to = given;
    uint32_t tile = texc_tile_named(name, to->part, to->end), file;
    int status = tile ? texc_find_tile(to->cache, to->set, tile, &file) : TEXCACHE_OK;
    if (status && status != TEXCACHE_NO_TILE) to->status = status;
}

/* Finds the files of all tiles that exist now. */
static int texc_find_tiles(texcache *cache, texc_set *set)
{
    const char *part = set->pattern;
    char folder[TEXC_PATH];
    while (!texc_is_number(*part)) part++;
    while (part > set->pattern && part[-1] != '/') part--;
    texc_listing listing = {cache, set, part, part + strcspn(part, "/"), TEXCACHE_OK};
    snprintf(folder, sizeof folder, "%.*s", (int)(part - set->pattern), set->pattern);
    texc_each_name(cache, folder, texc_take_name, &listing);
    return listing.status;
}

static bool texc_has_tile(const texc_set *set)
{
    for (size_t i = 0; i < TEXC_TILES; i++)
        if (__atomic_load_n(&set->files[i], __ATOMIC_RELAXED)) return true;
    return false;
}

/* Makes the set of a name, if a tile of it exists. */
int texc_make_set(texcache *cache, const char *name, texc_set **out)
{
    const size_t size = strlen(name) + 1;
    uint32_t file;
    int status = TEXCACHE_OK;
    texc_set *set = calloc(1, sizeof *set + 2 * size);
    if (!set) return TEXCACHE_NO_MEMORY;
    memcpy(set->name, name, size);
    set->pattern = set->name + size;
    texc_make_pattern(name, set->name + size);
    if (texc_find_tile(cache, set, TEXC_FIRST_TILE, &file)) status = texc_find_tiles(cache, set);
    if (!status && !texc_has_tile(set)) status = TEXCACHE_NO_NAME;
    if (status == TEXCACHE_NO_NAME) texc_notes("no tile of this name is found", 0);
    if (status) free(set);
    else *out = set;
    return status;
}

/* ---- errors */

/* Ends a call because the file of a tile was not found. Tile 0 is none that there can be. */
static int texc_refuse_tile(const texc_set *set, int status, uint32_t tile, texcache_answer *answer)
{
    texc_fact *fact = status == TEXCACHE_NO_TILE ? texc_keep_reading(status) : texc_keep(status, NULL);
    fact->answer.detail = status == TEXCACHE_NO_TILE ? tile : 0;
    texc_keep_name(fact, set->name);
    return texc_refuse(fact, answer);
}

/* Whether a call may begin in a pass now. The calls on the tiles' files begin by themselves. */
static int texc_may_begin(texcache_pass *pass, texcache_answer *answer)
{
    int refused = texc_begin(pass, NULL, answer);
    if (!refused) texc_leave(pass);
    return refused;
}

/* ---- lookups */

/* Splits a coordinate into its whole part and the rest. The whole part of one that is far out of range is -1. */
static int64_t texc_split(double coordinate, double *rest)
{
    int64_t fine = -1;
    texc_scaled(coordinate, TEXC_FINE, INT64_MIN, INT64_MAX, &fine);
    *rest = (double)(fine & UINT32_MAX) / TEXC_FINE;
    return (fine - (fine & UINT32_MAX)) / (INT64_C(1) << 32);
}

/* Moves one lookup in a set into its tile, if the tile's file was found before. Otherwise nothing changes, and the call
 * goes on with the set. */
void texc_enter_tile(const texcache_pass *pass, uint32_t *file, double *s, double *t)
{
    const texc_set *set = pass ? texc_set_of(pass->cache, *file) : NULL;
    double in_s, in_t;
    if (!set) return;
    const int64_t u = texc_split(*s, &in_s), v = texc_split(*t, &in_t);
    const uint32_t tile = texc_tile_of(u, v);
    const uint32_t found = tile ? __atomic_load_n(&set->files[tile - TEXC_FIRST_TILE], __ATOMIC_RELAXED) : 0;
    if (found) *file = found - 1, *s = in_s, *t = in_t;
}

/* Gathers the lookups from `from` on that are in one tile, at most a part. */
static void texc_gather(const texcache_coordinates *at, size_t from, size_t count, texc_run *run)
{
    const double *const given[6] = {at->s, at->t, at->dsdx, at->dtdx, at->dsdy, at->dtdy};
    for (run->count = 0; run->count < TEXC_PART && from < count; run->count++, from++) {
        double s, t;
        int64_t u = texc_split(at->s[from * at->step], &s), v = texc_split(at->t[from * at->step], &t);
        uint32_t tile = texc_tile_of(u, v);
        if (run->count && tile != run->tile) break;
        run->tile = tile;
        run->numbers[0][run->count] = s, run->numbers[1][run->count] = t;
        for (int k = 2; k < 6 && at->dsdx; k++) run->numbers[k][run->count] = given[k][from * at->step];
    }
}

/* Where the results of the lookups from `from` on go. */
static texcache_results texc_results_from(const texcache_results *results, size_t from, uint32_t channels)
{
    const size_t values = from * channels, size = results->type == TEXCACHE_FLOAT ? sizeof(float) : sizeof(uint16_t);
    texcache_results to = *results;
    to.room -= values;
    to.values = (char *)results->values + values * size;
    if (to.dresultds) to.dresultds += values, to.dresultdt += values;
    return to;
}

/* Makes the lookups of a run in the file of their tile, or gives them the missing colour if there is none. `made` says
 * how many stand. */
static int texc_look_up_run(const texc_set_job *job, const texc_run *run, size_t from, size_t *made, texcache_answer *answer)
{
    const double (*n)[TEXC_PART] = run->numbers;
    const bool has = job->at->dsdx != NULL;
    const texcache_coordinates at = {n[0], n[1], has ? n[2] : NULL, has ? n[3] : NULL, has ? n[4] : NULL, has ? n[5] : NULL, 1};
    const texcache_texture_options *o = job->options;
    const texcache_results to = texc_results_from(job->results, from, o->channels);
    uint32_t file;
    int status = run->tile ? texc_find_tile(job->pass->cache, job->set, run->tile, &file) : TEXCACHE_NO_TILE;
    *made = status ? 0 : run->count;
    if (status == TEXCACHE_NO_TILE && o->missing_color) {
        *made = run->count;
        return texc_give_missing(o, &to, run->count, TEXCACHE_NO_TILE, answer);
    }
    if (status) return texc_refuse_tile(job->set, status, run->tile, answer);
    if (to.type == TEXCACHE_UINT16 && !to.dresultds)
        return texcache_texture_many(job->pass, file, o, &at, run->count, to.values, to.room, made, answer);
    return texcache_texture_results(job->pass, file, o, &at, run->count, &to, made, answer);
}

/* The lookups of texcache_texture_results in a set. Their numbers are in range. */
int texc_look_up_set(const texc_set_job *job, size_t *done, texcache_answer *answer)
{
    static const texcache_answer none;
    texcache_answer said = none;
    texc_run run;
    size_t from = 0, made;
    int status = texc_may_begin(job->pass, answer);
    if (status) return status;
    while (!status && from < job->count) {
        const uint32_t generation = said.generation;
        const bool is_first = from == 0;
        texc_gather(job->at, from, job->count, &run);
        status = texc_look_up_run(job, &run, from, &made, &said);
        if (status == TEXCACHE_NO_TILE) said.value = texc_keep_index(from, job->count);
        if (!is_first && said.generation != generation) said.generation = 0;
        from += made;
    }
    if (done) *done = from;
    if (answer) *answer = said;
    return status;
}

/* Moves a lookup in 1/65536 of the image into its tile of a set, and says the tile's file. */
int texc_move_to_tile(texcache_pass *pass, uint32_t *file, texcache_lookup *r, texcache_answer *answer)
{
    texc_set *set = texc_set_of(pass->cache, *file);
    int status = texc_may_begin(pass, answer);
    if (status) return status;
    const int32_t s = r->s & 65535, t = r->t & 65535;
    uint32_t tile = texc_tile_of((r->s - s) / 65536, (r->t - t) / 65536);
    status = tile ? texc_find_tile(pass->cache, set, tile, file) : TEXCACHE_NO_TILE;
    r->s = s, r->t = t;
    return status ? texc_refuse_tile(set, status, tile, answer) : TEXCACHE_OK;
}

/* ---- calls on sets */

/* The set of a call that needs no pass, or NULL; then the error is kept. */
static texc_set *texc_set_in(const texcache *cache, uint32_t number, const char *wrong, int *refused)
{
    *refused = texc_refuse_names(cache, !cache ? "cache is NULL" : wrong);
    if (*refused) return NULL;
    texc_set *set = texc_set_of(cache, number);
    if (!set) *refused = texc_refuse(texc_keep(TEXCACHE_BAD_ARGUMENT, "the number is not that of a UDIM set"), NULL);
    return set;
}

bool texcache_is_udim(const texcache *cache, uint32_t file)
{
    return cache && texc_set_of(cache, file);
}

int texcache_udim_file(texcache *cache, uint32_t set, uint32_t tile, uint32_t *file)
{
    int status;
    uint32_t found;
    texc_set *of = texc_set_in(cache, set, file ? NULL : "file is NULL", &status);
    if (!of) return status;
    const bool is_one = tile >= TEXC_FIRST_TILE && tile <= TEXC_LAST_TILE;
    status = is_one ? texc_find_tile(cache, of, tile, &found) : TEXCACHE_NO_TILE;
    if (status) return texc_refuse_tile(of, status, is_one ? tile : 0, NULL);
    *file = found;
    return TEXCACHE_OK;
}

int texcache_udim_tiles(texcache *cache, uint32_t set, uint32_t *tiles, size_t room, size_t *count)
{
    int status;
    size_t found = 0;
    if (count) *count = 0;
    texc_set *of = texc_set_in(cache, set, tiles || !room ? NULL : "tiles is NULL, and room is not 0", &status);
    if (!of) return status;
    status = texc_find_tiles(cache, of);
    if (status) return texc_refuse_tile(of, status, 0, NULL);
    for (uint32_t i = 0; i < TEXC_TILES; i++) {
        if (!__atomic_load_n(&of->files[i], __ATOMIC_RELAXED)) continue;
        if (found < room) tiles[found] = TEXC_FIRST_TILE + i;
        found++;
    }
    if (count) *count = found;
    if (found <= room) return TEXCACHE_OK;
    texc_fact *fact = texc_keep(TEXCACHE_SMALL_BUFFER, "numbers");
    fact->given = room;
    fact->answer.value = found;
    return texc_refuse(fact, NULL);
}

/* The name of a set, or NULL. */
const char *texc_set_name(const texcache *cache, uint32_t number)
{
    const texc_set *set = texc_set_of(cache, number);
    return set ? set->name : NULL;
}

/* The file of a tile that was found before, if `number` is that of a set; `tile` counts from 0. */
bool texc_known_tile(const texcache *cache, uint32_t number, uint32_t tile, uint32_t *file)
{
    const texc_set *set = texc_set_of(cache, number);
    if (set && tile < TEXC_TILES) *file = __atomic_load_n(&set->files[tile], __ATOMIC_RELAXED) - 1;
    return set && tile < TEXC_TILES;
}
