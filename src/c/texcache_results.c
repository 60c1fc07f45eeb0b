/* texcache_results.c: lookups whose values or footprints the options change, whose values are floats, or that have
 * derivatives; and the refusals of all lookups on doubles. Each is made of lookups with 16-bit values. */
#define _POSIX_C_SOURCE 200809L
#include "texcache_inside.h"

#include <math.h>

/* The places of a lookup with derivatives of its values: its own, and one on each side across and down. */
#define TEXC_SIDES 5
/* A channel that the file lacks. */
#define TEXC_MISSING 8

/* Lookups of one call. */
typedef struct texc_job {
    const texcache_texture_options *options;
    const texcache_coordinates *at;
    const texcache_results *results;
    size_t count;
    texcache_batch batch;
    double scale;        /* 2^lod_bias */
    bool has_sides;      /* whether the values have derivatives */
    texc_known known;    /* the file, as far as the lookups have to know it */
    uint8_t channels[8]; /* which channel of the file each value is, or TEXC_MISSING */
} texc_job;

/* ---- values */

/* The half float that is nearest to a float; of two, the even one. */
static uint16_t texc_half(float value)
{
    uint32_t bits, sign;
    memcpy(&bits, &value, sizeof bits);
    sign = bits >> 16 & 0x8000;
    bits &= 0x7fffffff;
    if (bits > 0x7f800000) return (uint16_t)(sign | 0x7e00);
    if (bits >= 0x47800000) return (uint16_t)(sign | 0x7c00);
    if (bits >= 0x38800000) return (uint16_t)(sign | ((bits - 0x38000000 + 0xfff + (bits >> 13 & 1)) >> 13));
    /* below 2^-14 a half counts in 2^-24, as a float does from 0.5 on */
    memcpy(&value, &bits, sizeof value);
    value += 0.5f;
    memcpy(&bits, &value, sizeof bits);
    return (uint16_t)(sign | (bits - 0x3f000000));
}

/* A float as a 16-bit value: what is not above 0 is 0, and from 1 on it is 65535. */
static uint16_t texc_unit(float value)
{
    return !(value > 0) ? 0 : value >= 1 ? 65535 : (uint16_t)(value * 65535.0f + 0.5f);
}

/* Writes a value of the given type. */
static void texc_write(const texcache_results *results, size_t at, float value)
{
    if (results->type == TEXCACHE_FLOAT) ((float *)results->values)[at] = value;
    else ((uint16_t *)results->values)[at] = results->type == TEXCACHE_HALF ? texc_half(value) : texc_unit(value);
}

/* Which channel of a file a value is. A grey file that is seen as RGB has its grey three times, and then its alpha. */
static uint8_t texc_channel(const texcache_texture_options *o, uint32_t channel, uint32_t of_file)
{
    if (o->grey_to_rgb && of_file <= 2 && o->first_channel + o->channels >= 3)
        channel = channel < 3 ? 0 : channel == 3 && of_file == 2 ? 1 : TEXC_MISSING;
    return (uint8_t)(channel < of_file ? channel : TEXC_MISSING);
}

static void texc_set_channels(texc_job *job, uint32_t of_file)
{
    for (uint32_t i = 0; i < job->options->channels; i++)
        job->channels[i] = texc_channel(job->options, job->options->first_channel + i, of_file);
}

/* Writes the values of a lookup. `raw` has the file's channels. */
static void texc_write_values(const texc_job *job, size_t lookup, const uint16_t *raw)
{
    const texcache_texture_options *o = job->options;
    const size_t at = lookup * o->channels;
    for (uint32_t i = 0; i < o->channels; i++) {
        uint8_t channel = job->channels[i];
        if (channel == TEXC_MISSING) texc_write(job->results, at + i, o->first_channel + i == 3 ? o->fill_alpha : o->fill);
        else if (job->results->type == TEXCACHE_UINT16) ((uint16_t *)job->results->values)[at + i] = raw[channel];
        else texc_write(job->results, at + i, texc_float(raw[channel]));
    }
}

/* Writes the derivatives of a lookup's values: differences over the distance of its sides. */
static void texc_write_slopes(const texc_job *job, size_t lookup, const texcache_place *sides, const uint16_t *raw)
{
    const uint32_t channels = job->options->channels, row = job->batch.channels;
    const double across = (double)(sides[2].s - sides[1].s) / TEXC_FINE * 65535.0;
    const double down = (double)(sides[4].t - sides[3].t) / TEXC_FINE * 65535.0;
    for (uint32_t i = 0; i < channels; i++) {
        uint8_t channel = job->channels[i];
        const uint16_t *of = raw + channel;
        bool is_missing = channel == TEXC_MISSING;
        job->results->dresultds[lookup * channels + i] = is_missing ? 0 : (float)((of[2 * row] - of[row]) / across);
        job->results->dresultdt[lookup * channels + i] = is_missing ? 0 : (float)((of[4 * row] - of[3 * row]) / down);
    }
}

/* Gives the missing colour in place of an error. */
int texc_give_missing(const texcache_texture_options *o, const texcache_results *results, size_t count, uint32_t code,
                      texcache_answer *answer)
{
    static const texcache_answer none;
    for (size_t i = 0; i < count * o->channels; i++) {
        texc_write(results, i, o->missing_color[i % o->channels]);
        if (results->dresultds) results->dresultds[i] = results->dresultdt[i] = 0;
    }
    if (answer) {
        *answer = none;
        answer->detail = code;
    }
    return TEXCACHE_OK;
}

/* ---- footprints. d has dsdx, dtdx, dsdy and dtdy. */

/* Makes both axes of a footprint longer. An axis takes of either blur what its direction has. */
static void texc_blur(double d[4], double sblur, double tblur)
{
    double across = d[0] * d[0] + d[2] * d[2], down = d[1] * d[1] + d[3] * d[3], shear = d[0] * d[1] + d[2] * d[3];
    double half = (across - down) / 2, root = sqrt(half * half + shear * shear);
    double major = sqrt((across + down) / 2 + root), minor = major > 0 ? fabs(d[0] * d[3] - d[2] * d[1]) / major : 0;
    /* the direction of the longer axis, by the cosine of twice its angle */
    double turned = root > 0 ? half / root : 1;
    double s = sqrt(fmax(0, (1 + turned) / 2)), t = sqrt(fmax(0, (1 - turned) / 2));
    major += sblur * s + tblur * t;
    minor += sblur * t + tblur * s;
    if (shear < 0) t = -t;
    d[0] = major * s, d[1] = major * t, d[2] = -minor * t, d[3] = minor * s;
}

/* The derivatives as the options change them. */
static void texc_reshape(const texc_job *job, double d[4])
{
    const texcache_texture_options *o = job->options;
    d[0] *= o->swidth, d[1] *= o->twidth, d[2] *= o->swidth, d[3] *= o->twidth;
    if (o->sblur > 0 || o->tblur > 0) texc_blur(d, o->sblur, o->tblur);
    for (int k = 0; k < 4; k++) d[k] *= job->scale;
}

/* ---- places */

/* The numbers of a lookup: two, or with derivatives six. */
static void texc_numbers(const texc_job *job, size_t lookup, double d[6])
{
    const texcache_coordinates *at = job->at;
    const size_t k = lookup * at->step;
    d[0] = at->s[k], d[1] = at->t[k];
    if (!at->dsdx) return;
    d[2] = at->dsdx[k], d[3] = at->dtdx[k], d[4] = at->dsdy[k], d[5] = at->dtdy[k];
    texc_reshape(job, d + 2);
}

/* Converts the numbers of a lookup. Returns how many are in range before the first that is not, 6 if all are. Without
 * derivatives these are 0. */
static int texc_convert(const double d[6], bool is_footprint, texcache_place *place)
{
    const int64_t side = INT64_C(1) << 46, least = is_footprint ? -side : -2 * side;
    const int64_t most = is_footprint ? side : 2 * side - 1;
    int64_t *to[4] = {&place->dsdx, &place->dtdx, &place->dsdy, &place->dtdy};
    if (!texc_scaled(d[0], TEXC_FINE, least, most, &place->s)) return 0;
    if (!texc_scaled(d[1], TEXC_FINE, least, most, &place->t)) return 1;
    for (int k = 0; k < 4; k++) {
        *to[k] = 0;
        if (is_footprint && !texc_scaled(d[k + 2], TEXC_FINE, -side, side - 1, to[k])) return k + 2;
    }
    return 6;
}

/* Converts `count` lookups from `first` on. Returns how many came before the first whose numbers are out of range. */
static size_t texc_convert_all(const texc_job *job, size_t first, size_t count, texcache_place *places)
{
    double d[6];
    for (size_t i = 0; i < count; i++) {
        texc_numbers(job, first + i, d);
        if (texc_convert(d, job->at->dsdx != NULL, &places[i % TEXC_PART]) < 6) return i;
    }
    return count;
}

/* Half the distance of the sides of a lookup along an axis of the image: half a texel of the level, or half of the
 * larger derivative if that is more. */
static int64_t texc_reach(uint32_t side, uint32_t level, int64_t one, int64_t other)
{
    int64_t texel = (INT64_C(1) << 31) / (side >> level ? side >> level : 1);
    if (one < 0) one = -one;
    if (other < 0) other = -other;
    int64_t longer = (one > other ? one : other) / 2;
    return texel > longer ? texel : longer;
}

static int64_t texc_limited(int64_t value, int64_t least, int64_t most)
{
    return value < least ? least : value > most ? most : value;
}

/* The place of a lookup and those on its sides. */
static void texc_spread(const texc_job *job, const texcache_place *from, texcache_place *to)
{
    const bool is_footprint = job->at->dsdx != NULL;
    const int64_t most = is_footprint ? INT64_C(1) << 46 : (INT64_C(1) << 47) - 1, least = is_footprint ? -most : -most - 1;
    const texcache_info *info = &job->known.info;
    uint32_t level = (uint32_t)(((uint64_t)job->batch.lod + 32768) / 65536);
    if (is_footprint || level >= info->levels) level = is_footprint ? 0 : info->levels - 1;
    int64_t s = texc_reach(info->width, level, from->dsdx, from->dsdy);
    int64_t t = texc_reach(info->height, level, from->dtdx, from->dtdy);
    for (int k = 0; k < TEXC_SIDES; k++) to[k] = *from;
    to[1].s = texc_limited(from->s - s, least, most), to[2].s = texc_limited(from->s + s, least, most);
    to[3].t = texc_limited(from->t - t, least, most), to[4].t = texc_limited(from->t + t, least, most);
}

/* ---- calls */

/* Learns the file's channels and size, of its newest generation or, unless `is_anew`, of one that the pass knows. */
static uint32_t texc_learn(texcache_pass *pass, texc_job *job, bool is_anew, texcache_supply_answer *said)
{
    const uint32_t file = job->batch.file, forced = __atomic_load_n(&pass->cache->forced, __ATOMIC_RELAXED);
    texc_known *known = &pass->known;
    texc_tries tries = {0, 0};
    uint32_t code = TEXCACHE_OK;
    if (is_anew || !known->generation || known->file != file || known->forced != forced) {
        do {
            code = tex_c_info(pass->held, &pass->held, file, &known->info, said);
        } while (code && texc_goes_on(pass, code, said, &tries));
        known->file = file;
        known->forced = forced;
        known->generation = code ? 0 : said->generation;
    }
    job->known = *known;
    texc_set_channels(job, known->info.channels);
    return code;
}

/* Whether the values depend on the file's channels or size. */
static bool texc_has_to_know(const texc_job *job)
{
    const texcache_texture_options *o = job->options;
    return job->has_sides || o->grey_to_rgb || o->fill != 0 || o->fill_alpha != 0;
}

/* Makes some lookups, at most a part, and writes their values if they are of the known generation. */
static uint32_t texc_chunk(texcache_pass *pass, const texc_job *job, size_t from, size_t count,
                           const texcache_place *places, texcache_supply_answer *said)
{
    texcache_place sides[TEXC_PART];
    uint16_t raw[8 * TEXC_PART + 8];
    const size_t each = job->has_sides ? TEXC_SIDES : 1, row = job->batch.channels;
    for (size_t i = 0; job->has_sides && i < count; i++) texc_spread(job, &places[i], &sides[TEXC_SIDES * i]);
    uint32_t code = texc_look_up_part(pass, &job->batch, job->has_sides ? sides : places, each * count, raw, said);
    if (code || (job->known.generation && job->known.generation != said->generation)) return code;
    for (size_t i = 0; i < count; i++) {
        texc_write_values(job, from + i, raw + each * row * i);
        if (job->has_sides) texc_write_slopes(job, from + i, &sides[TEXC_SIDES * i], raw + each * row * i);
    }
    return code;
}

/* What is said if a file was replaced too often. */
static uint32_t texc_is_replaced(texcache_supply_answer *said)
{
    uint32_t newer = said->generation;
    memset(said, 0, sizeof *said);
    said->newer = newer;
    return TEXCACHE_AGAIN;
}

/* Makes all lookups of a call, on one generation: if the file is replaced meanwhile, they begin anew. `places` has the
 * first TEXC_PART. Returns the error; `done` and what is said are filled. */
static uint32_t texc_chunks(texcache_pass *pass, texc_job *job, texcache_place *places, size_t *done,
                            texcache_supply_answer *said)
{
    const size_t most = job->has_sides ? TEXC_PART / TEXC_SIDES : TEXC_PART;
    const bool has_to_know = texc_has_to_know(job);
    unsigned anew = 0;
    uint32_t code = has_to_know ? texc_learn(pass, job, false, said) : TEXCACHE_OK;
    *done = 0;
    do {
        if (code) return code;
        const size_t part = job->count - *done < most ? job->count - *done : most;
        if (job->count > TEXC_PART) texc_convert_all(job, *done, part, places);
        const texcache_place *first = job->count > TEXC_PART ? places : places + *done;
        code = texc_chunk(pass, job, *done, part, first, said);
        if (said->generation && job->known.generation && said->generation != job->known.generation) {
            *done = 0;
            job->known.generation = 0;
            if (++anew == TEXC_AGAIN) return texc_is_replaced(said);
            code = has_to_know ? texc_learn(pass, job, true, said) : TEXCACHE_OK;
            continue;
        }
        if (code) return code;
        job->known.generation = said->generation;
        *done += part;
    } while (*done < job->count);
    return code;
}

/* What is wrong with the arguments of a call, or NULL. */
static const char *texc_wrong_arguments(const texcache_pass *pass, const texcache_texture_options *options,
                                        const texcache_coordinates *at, const texcache_results *results)
{
    if (!pass) return "pass is NULL";
    if (!options) return "options is NULL";
    if (options->size != sizeof *options)
        return "the options have another size: texcache_default_texture_options sets it";
    if (!results) return "results is NULL";
    if (results->size != sizeof *results) return "the results have another size: it is sizeof(texcache_results)";
    if (!results->values) return "the place for the values is NULL";
    if (!results->dresultds != !results->dresultdt) return "one of dresultds and dresultdt is NULL, and the other is not";
    return texc_wrong_coordinates(at);
}

/* Ends a call because a coordinate or a derivative of a lookup is out of range. */
static int texc_refuse_place(const texc_job *job, size_t lookup, texcache_answer *answer)
{
    static const char *const names[] = {"s", "t", "dsdx", "dtdx", "dsdy", "dtdy"};
    const bool is_footprint = job->at->dsdx != NULL;
    texcache_place place;
    double d[6];
    texc_numbers(job, lookup, d);
    int bad = texc_convert(d, is_footprint, &place);
    texc_refuse_number(TEXCACHE_BAD_PLACE, d[bad], NULL);
    const char *range = bad > 1 ? "-16384 to below 16384" : is_footprint ? "-16384 to 16384" : "-32768 to below 32768";
    return texc_refuse(texc_keep_place(names[bad], range, lookup, job->count), answer);
}

/* Ends a call because a number or a buffer is not right. Returns 0 if all are; then the first places are converted. */
static int texc_refuse_numbers(const texc_job *job, texcache_place *places, texcache_answer *answer)
{
    const texcache_texture_options *o = job->options;
    double number = 0;
    if (!job->at->step && job->count > 1) return texc_refuse_number(TEXCACHE_BAD_STEP, 0, answer);
    uint32_t bad = texc_check_options(o, job->at->dsdx != NULL, &number);
    if (bad) return texc_refuse_number(bad, number, answer);
    if (job->results->type > TEXCACHE_HALF) return texc_refuse_number(TEXCACHE_BAD_TYPE, job->results->type, answer);
    size_t good = texc_convert_all(job, 0, job->count, places);
    if (good < job->count) return texc_refuse_place(job, good, answer);
    if (job->results->room / o->channels >= job->count) return TEXCACHE_OK;
    texc_fact *fact = texc_keep(TEXCACHE_SMALL_BUFFER, NULL);
    fact->given = job->results->room;
    fact->answer.value = (uint64_t)job->count * o->channels;
    return texc_refuse(fact, answer);
}

int texcache_texture_results(texcache_pass *pass, uint32_t file, const texcache_texture_options *options,
                             const texcache_coordinates *at, size_t count, const texcache_results *results, size_t *done,
                             texcache_answer *answer)
{
    texcache_place places[TEXC_PART];
    texcache_supply_answer said;
    size_t made = 0;
    if (done) *done = 0;
    const char *wrong = texc_wrong_arguments(pass, options, at, results);
    if (wrong) return texc_refuse(texc_keep(TEXCACHE_BAD_ARGUMENT, wrong), answer);
    texc_job job = {options, at, results, count, {0}, 1, results->dresultds != NULL, {0}, {0}};
    if (options->lod_bias != 0) job.scale = exp2(options->lod_bias);
    int refused = texc_refuse_numbers(&job, places, answer);
    const texc_set_job in_set = {pass, texc_set_of(pass->cache, file), options, at, results, count};
    if (!refused && in_set.set) return texc_look_up_set(&in_set, done, answer);
    if (!refused) refused = texc_begin(pass, NULL, answer);
    if (refused) return refused;
    texc_set_batch(options, file, at->dsdx != NULL, &job.batch);
    texc_set_channels(&job, 8);
    texc_count_lookups(pass, count);
    memset(&said, 0, sizeof said);
    uint32_t code = texc_chunks(pass, &job, places, &made, &said);
    bool is_missing = code && texc_gives_missing(options, code);
    if (done) *done = is_missing ? count : made;
    if (!is_missing) return texc_finish(pass, file, code, &said, answer);
    code = texc_status(pass, file, code);
    texc_count_error(pass, file, code);
    texc_leave(pass);
    return texc_give_missing(options, results, count, code, answer);
}
