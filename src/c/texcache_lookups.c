/* texcache_lookups.c: the lookups of texcache.h with 16-bit values and usual options, which go straight to the proved
 * library, and those in the units of the program's requests. texcache_results.c has the others. */
#define _POSIX_C_SOURCE 200809L
#include "texcache_inside.h"

/* How many lookups the library makes at once after it lacked bytes. */
#define TEXC_FEW 4

/* ---- options and values */

texcache_texture_options texcache_default_texture_options(uint32_t channels)
{
    texcache_texture_options o = {sizeof o, TEXCACHE_PERIODIC, TEXCACHE_PERIODIC, channels, TEXCACHE_BILINEAR, 0, 16,
                                  0, 0, 1, 1, 0, 0, 0, 0, 0, NULL};
    return o;
}

float texcache_float(uint16_t value)
{
    return texc_float(value);
}

void texcache_floats(const uint16_t *values, size_t count, float *out)
{
    for (size_t i = 0; i < count; i++) out[i] = texc_float(values[i]);
}

/* Which number of the options is out of range, and that number; or 0. */
uint32_t texc_check_options(const texcache_texture_options *o, bool is_footprint, double *number)
{
    texcache_batch unused;
    int64_t lod;
    if (texc_is_usual(o, is_footprint) && texc_set_batch(o, 0, is_footprint, &unused)) return 0;
    const struct { bool is_bad; uint32_t bad; double number; } checks[] = {
        {o->swrap > TEXCACHE_MIRROR, TEXCACHE_BAD_SWRAP, o->swrap},
        {o->twrap > TEXCACHE_MIRROR, TEXCACHE_BAD_TWRAP, o->twrap},
        {o->channels - 1 > 7, TEXCACHE_BAD_CHANNELS, o->channels},
        {!is_footprint && o->filter > TEXCACHE_TRILINEAR, TEXCACHE_BAD_FILTER, o->filter},
        {!(o->lod_bias >= -32 && o->lod_bias <= 32), TEXCACHE_BAD_LOD_BIAS, o->lod_bias},
        {!is_footprint && !texc_scaled(o->lod + o->lod_bias, 65536.0, INT32_MIN, UINT32_MAX, &lod), TEXCACHE_BAD_LOD,
         o->lod + o->lod_bias},
        {is_footprint && o->max_probes - 1 > 31, TEXCACHE_BAD_MAX_PROBES, o->max_probes},
        {o->first_channel > 7, TEXCACHE_BAD_FIRST_CHANNEL, o->first_channel},
        {is_footprint && !(o->swidth >= 0 && o->swidth <= 16384), TEXCACHE_BAD_SWIDTH, o->swidth},
        {is_footprint && !(o->twidth >= 0 && o->twidth <= 16384), TEXCACHE_BAD_TWIDTH, o->twidth},
        {is_footprint && !(o->sblur >= 0 && o->sblur <= 16384), TEXCACHE_BAD_SBLUR, o->sblur},
        {is_footprint && !(o->tblur >= 0 && o->tblur <= 16384), TEXCACHE_BAD_TBLUR, o->tblur},
    };
    for (size_t i = 0; i < sizeof checks / sizeof *checks; i++)
        if (checks[i].is_bad) {
            *number = checks[i].number;
            return checks[i].bad;
        }
    return 0;
}

/* ---- lookups */

/* Converts the coordinates of `count` lookups from `first` on; `to` keeps the last TEXC_PART of them. Stops at the first
 * number out of range, and returns how many lookups came before it. */
TEXC_INLINE size_t texc_places(const texcache_coordinates *at, size_t first, size_t count, texcache_place *to)
{
    const int64_t side = INT64_C(1) << 46;
    const double fine = 4294967296.0, *s = at->s + first * at->step, *t = at->t + first * at->step;
    const size_t step = at->step;
    size_t i, k = 0;
    if (!at->dsdx) {
        for (i = 0; i < count; i++, s += step, t += step) {
            texcache_place *place = &to[i % TEXC_PART];
            if (!texc_scaled(*s, fine, -2 * side, 2 * side - 1, &place->s)) break;
            if (!texc_scaled(*t, fine, -2 * side, 2 * side - 1, &place->t)) break;
        }
        return i;
    }
    const double *dsdx = at->dsdx + first * step, *dtdx = at->dtdx + first * step;
    const double *dsdy = at->dsdy + first * step, *dtdy = at->dtdy + first * step;
    for (i = 0; i < count; i++, k += step) {
        texcache_place *place = &to[i % TEXC_PART];
        if (!texc_scaled(s[k], fine, -side, side, &place->s)) break;
        if (!texc_scaled(t[k], fine, -side, side, &place->t)) break;
        if (!texc_scaled(dsdx[k], fine, -side, side - 1, &place->dsdx)) break;
        if (!texc_scaled(dtdx[k], fine, -side, side - 1, &place->dtdx)) break;
        if (!texc_scaled(dsdy[k], fine, -side, side - 1, &place->dsdy)) break;
        if (!texc_scaled(dtdy[k], fine, -side, side - 1, &place->dtdy)) break;
    }
    return i;
}

/* Makes lookups until one of them fails, but for those that only lack bytes. If bytes are lacking, `count` becomes less:
 * those behind the lookup that lacks them would be made twice. Returns the error. */
TEXC_INLINE uint32_t texc_part(texcache_pass *pass, const texcache_batch *batch, const texcache_place *places,
                                 size_t *count, uint16_t *out, texcache_batch_answer *said)
{
    texc_tries tries = {0, 0};
    uint32_t code;
    do {
        code = tex_c_texture_many(pass->held, &pass->held, batch, places, *count, out, *count * batch->channels, said);
        if (__builtin_expect(code == 0, 1)) break;
        if (code == TEXCACHE_NEEDED && said->done < *count) *count = (size_t)said->done + 1;
    } while (texc_goes_on(pass, code, &said->error, &tries));
    return code;
}

/* Makes lookups whose numbers are in range, part by part, all on one generation: if the file is replaced between two
 * parts, all begin anew. `places` has the first TEXC_PART. Returns the error; `done` and what is said are filled. */
TEXC_INLINE uint32_t texc_parts(texcache_pass *pass, const texcache_batch *batch, const texcache_coordinates *at,
                               size_t count, texcache_place *places, uint16_t *out, size_t *done,
                               texcache_batch_answer *said)
{
    size_t from = 0, size = TEXC_PART;
    uint32_t generation = 0, code;
    unsigned anew = 0;
    for (;;) {
        size_t part = count - from < size ? count - from : size, planned = part;
        texcache_place *first = places + from;
        if (count > TEXC_PART) texc_places(at, from, part, first = places);
        code = texc_part(pass, batch, first, &part, out + from * batch->channels, said);
        if (from && said->generation && said->generation != generation) {
            /* the file was replaced since the part before */
            if (++anew < TEXC_AGAIN) {
                from = 0;
                continue;
            }
            memset(&said->error, 0, sizeof said->error);
            said->error.newer = said->generation;
            code = TEXCACHE_AGAIN;
            break;
        }
        if (said->generation) generation = said->generation;
        from += code ? (size_t)said->done : part;
        if (code || from == count) break;
        /* a part that lacked bytes is made twice, so the next one is small */
        size = part < planned ? TEXC_FEW : 2 * size < TEXC_PART ? 2 * size : TEXC_PART;
    }
    if (done) *done = from;
    if (!said->error.generation) said->error.generation = generation;
    return code;
}

/* Makes lookups of at most one part, of one generation. Returns the error. */
uint32_t texc_look_up_part(texcache_pass *pass, const texcache_batch *batch, const texcache_place *places, size_t count,
                           uint16_t *out, texcache_supply_answer *said)
{
    texcache_batch_answer all;
    uint32_t code = texc_parts(pass, batch, NULL, count, (texcache_place *)places, out, NULL, &all);
    *said = all.error;
    return code;
}

/* Makes lookups, of which `count` is 1 in the calls for one. `raw` gets 16-bit values: it is where the results go, or a
 * place for those of one lookup, which then become floats. If the options are not the usual ones, or something is out of
 * range or too small, texcache_texture_results does it. */
TEXC_INLINE int texc_look_up(texcache_pass *pass, uint32_t file, const texcache_texture_options *options,
                             const texcache_coordinates *at, size_t count, const texcache_results *results, uint16_t *raw,
                             size_t *done, texcache_place *places, texcache_answer *answer)
{
    const bool is_footprint = at->dsdx != NULL;
    texcache_batch_answer said;
    texcache_batch batch;
    if (__builtin_expect(!pass || !options || !results->values || texc_is_set(file) || options->size != sizeof *options
                         || !texc_is_usual(options, is_footprint) || !texc_set_batch(options, file, is_footprint, &batch)
                         || results->room / batch.channels < count || texc_places(at, 0, count, places) < count, 0)) {
        const texcache_results to = *results;
        const texcache_coordinates from = *at;
        return texcache_texture_results(pass, file, options, &from, count, &to, done, answer);
    }
    if (done) *done = 0;
    int refused = texc_begin(pass, NULL, answer);
    if (refused) return refused;
    texc_count_lookups(pass, count);
    uint32_t code = texc_parts(pass, &batch, at, count, places, raw, done, &said);
    if (__builtin_expect(code && texc_gives_missing(options, code), 0)) {
        const texcache_results to = *results;
        code = texc_status(pass, file, code);
        texc_count_error(pass, file, code);
        texc_leave(pass);
        if (done) *done = count;
        return texc_give_missing(options, &to, count, code, answer);
    }
    if (!code && results->type == TEXCACHE_FLOAT) texcache_floats(raw, batch.channels, results->values);
    return texc_finish(pass, file, code, &said.error, answer);
}

int texcache_texture(texcache_pass *pass, uint32_t file, const texcache_texture_options *options, double s, double t,
                     uint16_t *out, size_t room, texcache_answer *answer)
{
    if (__builtin_expect(texc_is_set(file), 0)) texc_enter_tile(pass, &file, &s, &t);
    const texcache_results results = {sizeof results, TEXCACHE_UINT16, room, out, NULL, NULL};
    const texcache_coordinates at = {&s, &t, NULL, NULL, NULL, NULL, 1};
    texcache_place place;
    return texc_look_up(pass, file, options, &at, 1, &results, out, NULL, &place, answer);
}

int texcache_texture_float(texcache_pass *pass, uint32_t file, const texcache_texture_options *options, double s, double t,
                           float *out, size_t room, texcache_answer *answer)
{
    if (__builtin_expect(texc_is_set(file), 0)) texc_enter_tile(pass, &file, &s, &t);
    const texcache_results results = {sizeof results, TEXCACHE_FLOAT, room, out, NULL, NULL};
    const texcache_coordinates at = {&s, &t, NULL, NULL, NULL, NULL, 1};
    texcache_place place;
    uint16_t raw[8];
    return texc_look_up(pass, file, options, &at, 1, &results, raw, NULL, &place, answer);
}

int texcache_texture_footprint(texcache_pass *pass, uint32_t file, const texcache_texture_options *options, double s,
                               double t, double dsdx, double dtdx, double dsdy, double dtdy, uint16_t *out, size_t room,
                               texcache_answer *answer)
{
    if (__builtin_expect(texc_is_set(file), 0)) texc_enter_tile(pass, &file, &s, &t);
    const texcache_results results = {sizeof results, TEXCACHE_UINT16, room, out, NULL, NULL};
    const texcache_coordinates at = {&s, &t, &dsdx, &dtdx, &dsdy, &dtdy, 1};
    texcache_place place;
    return texc_look_up(pass, file, options, &at, 1, &results, out, NULL, &place, answer);
}

int texcache_texture_footprint_float(texcache_pass *pass, uint32_t file, const texcache_texture_options *options, double s,
                                     double t, double dsdx, double dtdx, double dsdy, double dtdy, float *out, size_t room,
                                     texcache_answer *answer)
{
    if (__builtin_expect(texc_is_set(file), 0)) texc_enter_tile(pass, &file, &s, &t);
    const texcache_results results = {sizeof results, TEXCACHE_FLOAT, room, out, NULL, NULL};
    const texcache_coordinates at = {&s, &t, &dsdx, &dtdx, &dsdy, &dtdy, 1};
    texcache_place place;
    uint16_t raw[8];
    return texc_look_up(pass, file, options, &at, 1, &results, raw, NULL, &place, answer);
}

int texcache_texture_many(texcache_pass *pass, uint32_t file, const texcache_texture_options *options,
                          const texcache_coordinates *at, size_t count, uint16_t *out, size_t room, size_t *done,
                          texcache_answer *answer)
{
    const texcache_results results = {sizeof results, TEXCACHE_UINT16, room, out, NULL, NULL};
    texcache_place places[TEXC_PART];
    if (texc_wrong_coordinates(at) || (!at->step && count > 1))
        return texcache_texture_results(pass, file, options, at, count, &results, done, answer);
    return texc_look_up(pass, file, options, at, count, &results, out, done, places, answer);
}

/* ---- lookups in the units of the program's requests */

texcache_lookup texcache_lookup_at(int32_t s, int32_t t, uint32_t lod, uint32_t channels)
{
    texcache_lookup r = {s, t, lod, TEXCACHE_PERIODIC, TEXCACHE_PERIODIC, TEXCACHE_BILINEAR, channels, 0, 0, 0, 0};
    return r;
}

/* A lookup of the library. */
typedef uint32_t texc_lookup(texcache_held from, texcache_held *to, uint32_t file, const texcache_lookup *lookup,
                             uint16_t *out, size_t room, texcache_supply_answer *answer);

/* Ends a lookup because a number is out of range. Only those of a footprint have coordinates that can be. */
static int texc_refuse_fixed(const texcache_lookup *r, bool is_footprint, texcache_answer *answer)
{
    const struct { const char *name; int32_t number; } places[] = {{"S", r->s}, {"T", r->t}, {"DSDX", r->dsdx},
                                                                   {"DTDX", r->dtdx}, {"DSDY", r->dsdy}, {"DTDY", r->dtdy}};
    size_t i = 0;
    if (r->swrap > TEXCACHE_MIRROR) return texc_refuse_number(TEXCACHE_BAD_SWRAP, r->swrap, answer);
    if (r->twrap > TEXCACHE_MIRROR) return texc_refuse_number(TEXCACHE_BAD_TWRAP, r->twrap, answer);
    if (r->channels - 1 > 7) return texc_refuse_number(TEXCACHE_BAD_CHANNELS, r->channels, answer);
    if (!is_footprint) return texc_refuse_number(TEXCACHE_BAD_FILTER, r->filter, answer);
    while (i < 5 && places[i].number >= -(1 << 30) && places[i].number < 1 << 30) i++;
    texc_refuse_number(TEXCACHE_BAD_PLACE, places[i].number, NULL);
    return texc_refuse(texc_keep_place(places[i].name, "-1073741824 to 1073741823", 0, 1), answer);
}

TEXC_INLINE int texc_look_up_fixed(texc_lookup *look_up, texcache_pass *pass, uint32_t file, const texcache_lookup *r,
                                   bool is_footprint, uint16_t *out, size_t room, texcache_answer *answer)
{
    texcache_supply_answer said;
    texc_tries tries = {0, 0};
    texcache_lookup moved;
    uint32_t code;
    if (__builtin_expect(texc_is_set(file), 0) && pass && r && out && texc_set_of(pass->cache, file)) {
        moved = *r;
        int status = texc_move_to_tile(pass, &file, &moved, answer);
        if (status) return status;
        r = &moved;
    }
    int refused = texc_begin(pass, !r ? "lookup is NULL" : !out ? "out is NULL" : NULL, answer);
    if (refused) return refused;
    texc_count_lookups(pass, 1);
    do {
        code = look_up(pass->held, &pass->held, file, r, out, room, &said);
    } while (__builtin_expect(code != 0, 0) && texc_goes_on(pass, code, &said, &tries));
    if (code == TEXCACHE_SMALL_BUFFER) said.value = r->channels;
    int status = texc_finish(pass, file, code, &said, answer);
    if (code == TEXCACHE_SMALL_BUFFER) texc_keep_room(room);
    return code == TEXCACHE_BAD_REQUEST ? texc_refuse_fixed(r, is_footprint, answer) : status;
}

int texcache_texture_fixed(texcache_pass *pass, uint32_t file, const texcache_lookup *lookup, uint16_t *out, size_t room,
                           texcache_answer *answer)
{
    return texc_look_up_fixed(tex_c_texture, pass, file, lookup, false, out, room, answer);
}

int texcache_texture_d_fixed(texcache_pass *pass, uint32_t file, const texcache_lookup *lookup, uint16_t *out,
                             size_t room, texcache_answer *answer)
{
    return texc_look_up_fixed(tex_c_texture_d, pass, file, lookup, true, out, room, answer);
}

int texcache_texture_local_fixed(texcache_pass *pass, uint32_t file, const texcache_lookup *lookup, uint16_t *out,
                                 size_t room, texcache_answer *answer)
{
    return texc_look_up_fixed(tex_c_texture_local, pass, file, lookup, false, out, room, answer);
}
