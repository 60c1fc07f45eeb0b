/* The options of lookups and the types of their results: options FOLDER, an empty folder that it may write to. Values are
 * compared with those of a plain reader of the test's own images, and of formulas. */
#define _XOPEN_SOURCE 700
#include "images.h"
#include <fcntl.h>
#include <math.h>
#include <pthread.h>
#include <sys/stat.h>
#include <time.h>
#include <unistd.h>

enum { SIDE = 64, LEVELS = 7, CHANNELS = 4 };

static texcache *cache;
static texcache_pass *pass;
static const char *folder;

/* ---- a plain reader of the image noise.tif, with all levels, by docs/FORMAT.md and docs/FILTERING.md */

static unsigned levels[LEVELS][SIDE][SIDE][CHANNELS];

static unsigned noise(unsigned x, unsigned y, unsigned channel)
{
    unsigned n = (x * 73856093u) ^ (y * 19349663u) ^ ((channel + 1) * 83492791u);
    return (n ^ n >> 13) * 2654435761u >> 24;
}

static void make_levels(void)
{
    for (unsigned y = 0; y < SIDE; y++)
        for (unsigned x = 0; x < SIDE; x++)
            for (unsigned c = 0; c < CHANNELS; c++) levels[0][y][x][c] = noise(x, y, c);
    for (int n = 1; n < LEVELS; n++)
        for (int y = 0; y < SIDE >> n; y++)
            for (int x = 0; x < SIDE >> n; x++)
                for (int c = 0; c < CHANNELS; c++)
                    levels[n][y][x][c] = (levels[n - 1][2 * y][2 * x][c] + levels[n - 1][2 * y][2 * x + 1][c]
                                          + levels[n - 1][2 * y + 1][2 * x][c] + levels[n - 1][2 * y + 1][2 * x + 1][c] + 2) / 4;
}

/* The index before a coordinate in a level, and the fraction of the next one, in 1/65536. */
static int64_t before(double s, int side, int64_t *fraction)
{
    int64_t fine = (int64_t)floor(4294967296.0 * s + 0.5), d = (int64_t)floor((double)fine * side / 65536) - 32768;
    int64_t i = (int64_t)floor((double)d / 65536);
    *fraction = d - 65536 * i;
    return i;
}

/* The periodic bilinear value of a channel in a level. */
static unsigned bilinear(double s, double t, int level, unsigned channel)
{
    int side = SIDE >> level;
    int64_t f, g, i = before(s, side, &f), j = before(t, side, &g);
    uint64_t sum = UINT64_C(1) << 31;
    for (int k = 0; k < 4; k++) {
        int64_t x = ((i + k % 2) % side + side) % side, y = ((j + k / 2) % side + side) % side;
        sum += 257 * levels[level][y][x][channel] * (uint64_t)(k % 2 ? f : 65536 - f) * (uint64_t)(k / 2 ? g : 65536 - g);
    }
    return (unsigned)(sum >> 32);
}

/* The half float nearest to a number, of two the even one, by arithmetic. */
static unsigned nearest_half(double value)
{
    unsigned sign = signbit(value) ? 0x8000 : 0;
    int exponent;
    value = fabs(value);
    if (value == 0) return sign;
    frexp(value, &exponent);
    if (exponent < -13) exponent = -13;
    double steps = nearbyint(ldexp(value, 11 - exponent));
    if (ldexp(steps, exponent - 11) > 65504) return sign | 0x7c00;
    return sign | (unsigned)((exponent + 13) * 1024 + steps);
}

/* ---- values */

static double random_number(void)
{
    static uint64_t state = 7;
    state = state * 6364136223846793005u + 1442695040888963407u;
    return (double)(state >> 11) / 9007199254740992.0;
}

/* Channels from the first on, and the level with its bias. */
static void channels_and_bias(void)
{
    uint32_t file = file_of(cache, "noise.tif");
    for (int n = 0; n < 3000; n++) {
        texcache_texture_options o = texcache_default_texture_options(1 + n % 8);
        int level = n / 8 % LEVELS;
        double s = 4 * random_number() - 2, t = 4 * random_number() - 2;
        uint16_t out[8];
        float floats[8];
        o.first_channel = (uint32_t)(n / 3 % 8);
        o.lod = level - 2.25, o.lod_bias = 2.25;
        o.fill = 0.25f, o.fill_alpha = n % 2 ? 1.0f : 0.0f;
        SAYS(texcache_texture(pass, file, &o, s, t, out, 8, NULL), TEXCACHE_OK);
        SAYS(texcache_texture_float(pass, file, &o, s, t, floats, 8, NULL), TEXCACHE_OK);
        for (uint32_t c = 0; c < o.channels; c++) {
            uint32_t of = o.first_channel + c;
            unsigned wanted = of < CHANNELS ? bilinear(s, t, level, of) : 16384;
            IS(out[c] == wanted);
            IS(floats[c] == (of < CHANNELS ? (float)wanted / 65535.0f : 0.25f));
        }
    }
}

static unsigned two(unsigned x, unsigned y, unsigned channel)
{
    (void)x, (void)y;
    return channel ? 200 : 100;
}

/* Grey as RGB, with the alpha of the file or the one that is filled in; and files with more channels. */
static void grey_as_rgb(void)
{
    static const struct { const char *name; uint32_t first, channels; unsigned wanted[4]; } cases[] = {
        {"one.tif", 0, 4, {100, 100, 100, 51}}, {"one.tif", 0, 3, {100, 100, 100}}, {"one.tif", 0, 2, {100, 255}},
        {"one.tif", 0, 1, {100}}, {"one.tif", 2, 2, {100, 51}}, {"one.tif", 3, 2, {51, 255}},
        {"two.tif", 0, 4, {100, 100, 100, 200}}, {"two.tif", 0, 3, {100, 100, 100}}, {"two.tif", 0, 2, {100, 200}},
        {"two.tif", 1, 2, {100, 100}}, {"two.tif", 3, 1, {200}}, {"two.tif", 1, 1, {200}},
        {"three.tif", 0, 4, {100, 200, 200, 51}}, {"three.tif", 1, 2, {200, 200}}};
    for (size_t i = 0; i < sizeof cases / sizeof *cases; i++) {
        texcache_texture_options o = texcache_default_texture_options(cases[i].channels);
        texcache_answer answer;
        float floats[8];
        uint16_t out[8];
        uint32_t file = file_of(cache, cases[i].name);
        o.grey_to_rgb = 1, o.first_channel = cases[i].first, o.fill = 1, o.fill_alpha = 0.2f;
        SAYS(texcache_texture(pass, file, &o, 0.5, 0.5, out, 8, &answer), TEXCACHE_OK);
        IS(answer.generation == 1);
        SAYS(texcache_texture_footprint_float(pass, file, &o, 0.5, 0.5, 0.1, 0, 0, 0.1, floats, 8, NULL), TEXCACHE_OK);
        for (uint32_t c = 0; c < o.channels; c++) {
            IS(out[c] == 257 * cases[i].wanted[c]);
            IS(fabs(floats[c] - cases[i].wanted[c] / 255.0) < 1e-6);
        }
    }
}

/* Each 16-bit value as a half, and numbers that no 16-bit value has, by the fill. */
static void halves(void)
{
    static const double more[] = {0.0, 65504, 65519.9, 65520, 1e30, -70000, 6e-8, 2.98e-8, 2.99e-8, 6.103515625e-5,
                                  6.1e-5, 1.5, 0.333333, -2.0009765, 2049, 2051, 1e-30, -1e-30, 0.000060975552};
    texcache_texture_options o = texcache_default_texture_options(1);
    uint32_t file = file_of(cache, "one.tif");
    uint16_t out;
    double s = 0.5;
    texcache_coordinates at = {&s, &s, NULL, NULL, NULL, NULL, 1};
    texcache_results r = {sizeof r, TEXCACHE_HALF, 1, &out, NULL, NULL};
    o.first_channel = 1;
    for (unsigned n = 0; n < 65536 + sizeof more / sizeof *more; n++) {
        o.fill = n < 65536 ? texcache_float((uint16_t)n) : (float)more[n - 65536];
        if (texcache_texture_results(pass, file, &o, &at, 1, &r, NULL, NULL)) failures++;
        if (out != nearest_half(o.fill)) printf("%.9g is %x, wanted %x\n", o.fill, out, nearest_half(o.fill)), failures++;
    }
    o.fill = NAN;
    SAYS(texcache_texture_results(pass, file, &o, &at, 1, &r, NULL, NULL), TEXCACHE_OK);
    IS((out & 0x7c00) == 0x7c00 && out & 0x3ff);
    o.fill = INFINITY;
    SAYS(texcache_texture_results(pass, file, &o, &at, 1, &r, NULL, NULL), TEXCACHE_OK);
    IS(out == 0x7c00);
    r.type = TEXCACHE_UINT16;
    static const struct { float fill; unsigned wanted; } units[] = {{-1, 0}, {NAN, 0}, {2, 65535}, {0.5f, 32768}, {INFINITY, 65535}};
    for (int i = 0; i < 5; i++) {
        o.fill = units[i].fill;
        SAYS(texcache_texture_results(pass, file, &o, &at, 1, &r, NULL, NULL), TEXCACHE_OK);
        IS(out == units[i].wanted);
    }
}

/* ---- footprints */

/* Round footprints whose level follows from width, blur and bias: the bilinear value of that level. */
static void round_footprints(void)
{
    uint32_t file = file_of(cache, "noise.tif");
    for (int level = 0; level < LEVELS; level++)
        for (int n = 0; n < 50; n++) {
            texcache_texture_options o = texcache_default_texture_options(CHANNELS);
            double s = random_number(), t = random_number(), texel = 1.0 / SIDE, size = ldexp(texel, level);
            double turn = n % 2 ? 0 : 0.6, across = n % 2 ? 1 : 0.8;
            uint16_t out[4][CHANNELS];
            o.swidth = o.twidth = ldexp(1, level);
            SAYS(texcache_texture_footprint(pass, file, &o, s, t, texel, 0, 0, texel, out[0], 4, NULL), TEXCACHE_OK);
            o.swidth = o.twidth = 1, o.lod_bias = level - 3;
            SAYS(texcache_texture_footprint(pass, file, &o, s, t, 0, 8 * texel, 8 * texel, 0, out[1], 4, NULL), TEXCACHE_OK);
            o.lod_bias = 0, o.sblur = o.tblur = size;
            SAYS(texcache_texture_footprint(pass, file, &o, s, t, 0, 0, 0, 0, out[2], 4, NULL), TEXCACHE_OK);
            o.sblur = o.tblur = size / 2 / (across + turn);
            SAYS(texcache_texture_footprint(pass, file, &o, s, t, across * size / 2, turn * size / 2, -turn * size / 2,
                                            across * size / 2, out[3], 4, NULL), TEXCACHE_OK);
            for (int k = 0; k < (n % 2 ? 4 : 3); k++)
                for (unsigned c = 0; c < CHANNELS; c++) IS(out[k][c] == bilinear(s, t, level, c));
        }
}

/* Blurred ellipses, beside ellipses whose axes are worked out here by angles. */
static void blurred_ellipses(void)
{
    uint32_t file = file_of(cache, "noise.tif");
    unsigned worst = 0;
    for (int n = 0; n < 2000; n++) {
        texcache_texture_options o = texcache_default_texture_options(CHANNELS);
        double s = random_number(), t = random_number(), turn = 7 * random_number(), angle = 7 * random_number();
        double major = exp2(-1 - 5 * random_number()), minor = major * (n % 3 ? random_number() : 1e-9);
        double sblur = n % 5 ? 0.2 * random_number() : 0, tblur = n % 7 ? 0.2 * random_number() : 0;
        uint16_t out[CHANNELS], wanted[CHANNELS];
        /* one axis at `angle`, the other across; the two steps are any turn of them */
        double d[4] = {major * cos(angle) * cos(turn) - minor * sin(angle) * sin(turn),
                       major * sin(angle) * cos(turn) + minor * cos(angle) * sin(turn),
                       -major * cos(angle) * sin(turn) - minor * sin(angle) * cos(turn),
                       -major * sin(angle) * sin(turn) + minor * cos(angle) * cos(turn)};
        major += sblur * fabs(cos(angle)) + tblur * fabs(sin(angle));
        minor += sblur * fabs(sin(angle)) + tblur * fabs(cos(angle));
        SAYS(texcache_texture_footprint(pass, file, &o, s, t, major * cos(angle), major * sin(angle), -minor * sin(angle),
                                        minor * cos(angle), wanted, 4, NULL), TEXCACHE_OK);
        o.sblur = sblur, o.tblur = tblur;
        SAYS(texcache_texture_footprint(pass, file, &o, s, t, d[0], d[1], d[2], d[3], out, 4, NULL), TEXCACHE_OK);
        for (int c = 0; c < CHANNELS; c++) {
            unsigned apart = (unsigned)abs((int)out[c] - (int)wanted[c]);
            if (apart > worst) worst = apart;
        }
    }
    IS(worst <= 16);
}

/* ---- derivatives of results */

static unsigned ramp(unsigned x, unsigned y, unsigned channel)
{
    return channel == 0 ? 4 * x : channel == 1 ? 3 * y : 77;
}

static unsigned edge(unsigned x, unsigned y, unsigned channel)
{
    (void)x, (void)channel;
    return y < 16 ? 0 : 200;
}

/* On a ramp they are its slope; a channel that the file lacks, or one of one value, has none. */
static void slopes(void)
{
    enum { COUNT = 100 };
    static double s[COUNT], t[COUNT], round[COUNT], none[COUNT];
    static float values[5 * COUNT], ds[5 * COUNT], dt[5 * COUNT];
    uint32_t file = file_of(cache, "ramp.tif"), noisy = file_of(cache, "noise.tif"), half = file_of(cache, "half.tif");
    texcache_texture_options o = texcache_default_texture_options(5);
    texcache_coordinates at = {s, t, NULL, NULL, NULL, NULL, 1};
    texcache_results r = {sizeof r, TEXCACHE_FLOAT, 5 * COUNT, values, ds, dt};
    size_t done;
    o.fill = 0.5f;
    for (int n = 0; n < COUNT; n++) {
        s[n] = 0.25 + 0.5 * random_number(), t[n] = 0.25 + 0.5 * random_number();
        round[n] = 4.0 / SIDE, none[n] = 0;
    }
    for (int kind = 0; kind < 4; kind++) {
        /* points, then footprints; on 64 by 64 texels, then on 64 by 32 */
        int height = kind < 2 ? SIDE : SIDE / 2;
        at.dsdx = kind % 2 ? round : NULL, at.dtdy = at.dsdx;
        at.dtdx = kind % 2 ? none : NULL, at.dsdy = at.dtdx;
        SAYS(texcache_texture_results(pass, kind < 2 ? file : half, &o, &at, COUNT, &r, &done, NULL), TEXCACHE_OK);
        IS(done == COUNT);
        for (int n = 0; n < COUNT; n++) {
            /* a value is rounded to 1/65535, and so is each side */
            double error = 1.001 * SIDE / 65535;
            IS(fabs(ds[5 * n] - 4.0 * SIDE / 255) < error && fabs(dt[5 * n]) < error);
            IS(fabs(dt[5 * n + 1] - 3.0 * height / 255) < error && fabs(ds[5 * n + 1]) < error);
            IS(ds[5 * n + 2] == 0 && dt[5 * n + 2] == 0 && ds[5 * n + 3] == 0 && values[5 * n + 4] == 0.5f && dt[5 * n + 4] == 0);
            IS(fabs(values[5 * n] - (s[n] * SIDE - 0.5) * 4 / 255) < 2.0 / 255);
        }
    }
    /* on noise: the difference of the bilinear values half a texel of the level before and behind */
    for (int level = 0; level < 3; level++) {
        at.dsdx = at.dtdx = at.dsdy = at.dtdy = NULL;
        o = texcache_default_texture_options(1);
        o.lod = level;
        r.room = COUNT;
        SAYS(texcache_texture_results(pass, noisy, &o, &at, COUNT, &r, &done, NULL), TEXCACHE_OK);
        double reach = ldexp(0.5 / SIDE, level);
        for (int n = 0; n < COUNT; n++) {
            double fine = floor(4294967296.0 * s[n] + 0.5) / 4294967296.0, down = floor(4294967296.0 * t[n] + 0.5) / 4294967296.0;
            double across = (double)bilinear(fine + reach, down, level, 0) - bilinear(fine - reach, down, level, 0);
            double below = (double)bilinear(fine, down + reach, level, 0) - bilinear(fine, down - reach, level, 0);
            IS(ds[n] == (float)(across / (2 * reach * 65535)) && dt[n] == (float)(below / (2 * reach * 65535)));
        }
    }
    /* beside an edge, in an image of 64 by 32: a quarter of a texel behind it, the sides are 50 and 200 of 255 */
    s[0] = 0.5, t[0] = 16.25 / 32, o.lod = 0;
    SAYS(texcache_texture_results(pass, file_of(cache, "edge.tif"), &o, &at, 1, &r, &done, NULL), TEXCACHE_OK);
    IS(fabs(dt[0] - 150 / 255.0 * 32) < 1.001 * 32 / 65535 && ds[0] == 0);
    /* at the end of the range, where one side is missing, and with a reach of many images */
    s[0] = -32768, t[0] = 32768 - 1 / 4294967296.0;
    SAYS(texcache_texture_results(pass, file, &o, &at, 1, &r, &done, NULL), TEXCACHE_OK);
    IS(isfinite(ds[0]) && isfinite(dt[0]));
    round[0] = -16384, s[0] = 16384, t[0] = -16384;
    at.dsdx = at.dtdx = at.dsdy = at.dtdy = round;
    SAYS(texcache_texture_results(pass, file, &o, &at, 1, &r, &done, NULL), TEXCACHE_OK);
    IS(isfinite(ds[0]) && isfinite(dt[0]));
}

/* ---- a colour in place of an error */

static void missing(void)
{
    static const float pink[3] = {1, 0.5f, -2};
    static const struct { const char *name; int detail; } cases[] = {{"packed.tif", TEXCACHE_BAD_FILE}, {"gone.tif", TEXCACHE_READ_FAULT},
                                                                     {NULL, TEXCACHE_NO_FILE}};
    double numbers[6] = {0.5, 0.5, 0.1, 0, 0, 0.1};
    texcache_coordinates at = {numbers, numbers + 1, NULL, NULL, NULL, NULL, 0};
    for (int i = 0; i < 3; i++) {
        texcache_texture_options o = texcache_default_texture_options(3);
        uint32_t file = cases[i].name ? file_of(cache, cases[i].name) : UINT32_MAX;
        uint16_t out[9];
        float floats[9], ds[9], dt[9];
        texcache_answer a;
        texcache_results r = {sizeof r, TEXCACHE_FLOAT, 9, floats, ds, dt};
        size_t done = 77;
        SAYS(texcache_texture(pass, file, &o, 0.5, 0.5, out, 9, &a), cases[i].detail);
        o.missing_color = pink;
        SAYS(texcache_texture(pass, file, &o, 0.5, 0.5, out, 9, &a), TEXCACHE_OK);
        IS(out[0] == 65535 && out[1] == 32768 && out[2] == 0);
        IS(a.generation == 0 && a.detail == (uint32_t)cases[i].detail && a.part == 0 && a.value == 0);
        SAYS(texcache_texture_footprint_float(pass, file, &o, 0, 0, 0, 0, 0, 0, floats, 9, &a), TEXCACHE_OK);
        IS(!memcmp(floats, pink, sizeof pink));
        at.step = 1;
        memset(ds, 255, sizeof ds);
        double s[3] = {0, 0, 0};
        at.s = at.t = s;
        SAYS(texcache_texture_results(pass, file, &o, &at, 3, &r, &done, &a), TEXCACHE_OK);
        IS(done == 3 && !memcmp(floats + 6, pink, sizeof pink) && ds[8] == 0 && dt[0] == 0);
        done = 77, out[8] = 9;
        SAYS(texcache_texture_many(pass, file, &o, &at, 3, out, 9, &done, &a), TEXCACHE_OK);
        IS(done == 3 && out[6] == 65535 && out[8] == 0);
        /* an error of the call is still an error */
        SAYS(texcache_texture_many(pass, file, &o, &at, 3, out, 8, &done, &a), TEXCACHE_SMALL_BUFFER);
        SAYS(texcache_texture(pass, file, &o, NAN, 0, out, 8, &a), TEXCACHE_BAD_REQUEST);
        IS(done == 0);
    }
}

/* ---- bad use */

static void bad_use(void)
{
    uint32_t file = file_of(cache, "noise.tif");
    texcache_texture_options good = texcache_default_texture_options(2), o;
    double numbers[2] = {0.5, NAN};
    texcache_coordinates at = {numbers, numbers, NULL, NULL, NULL, NULL, 1};
    float out[4] = {9, 9, 9, 9}, ds[4];
    texcache_results r = {sizeof r, TEXCACHE_FLOAT, 4, out, NULL, NULL}, bad;
    texcache_answer a;
    size_t done = 77;
    SAYS(texcache_texture_results(pass, file, &good, &at, 1, NULL, &done, &a), TEXCACHE_BAD_ARGUMENT);
    bad = r, bad.size--;
    SAYS(texcache_texture_results(pass, file, &good, &at, 1, &bad, &done, &a), TEXCACHE_BAD_ARGUMENT);
    bad = r, bad.values = NULL;
    SAYS(texcache_texture_results(pass, file, &good, &at, 1, &bad, &done, &a), TEXCACHE_BAD_ARGUMENT);
    bad = r, bad.dresultds = ds;
    SAYS(texcache_texture_results(pass, file, &good, &at, 1, &bad, &done, &a), TEXCACHE_BAD_ARGUMENT);
    bad = r, bad.type = 3;
    SAYS(texcache_texture_results(pass, file, &good, &at, 1, &bad, &done, &a), TEXCACHE_BAD_REQUEST);
    IS(a.detail == TEXCACHE_BAD_TYPE);
    SAYS(texcache_texture_results(pass, file, &good, NULL, 1, &r, &done, &a), TEXCACHE_BAD_ARGUMENT);
    SAYS(texcache_texture_results(NULL, file, &good, &at, 1, &r, &done, &a), TEXCACHE_BAD_ARGUMENT);
    SAYS(texcache_texture_results(pass, file, NULL, &at, 1, &r, &done, &a), TEXCACHE_BAD_ARGUMENT);
    SAYS(texcache_texture_results(pass, file, &good, &at, 2, &r, &done, &a), TEXCACHE_BAD_REQUEST);
    IS(a.detail == TEXCACHE_BAD_PLACE && a.value == 1 && done == 0);
    at.step = 0;
    SAYS(texcache_texture_results(pass, file, &good, &at, 2, &r, &done, &a), TEXCACHE_BAD_REQUEST);
    IS(a.detail == TEXCACHE_BAD_STEP);
    at.step = 1, r.room = 1;
    SAYS(texcache_texture_results(pass, file, &good, &at, 1, &r, &done, &a), TEXCACHE_SMALL_BUFFER);
    IS(a.value == 2);
    SAYS(texcache_texture_float(pass, file, &good, 0, 0, NULL, 4, &a), TEXCACHE_BAD_ARGUMENT);
    SAYS(texcache_texture_float(pass, 99, &good, 0, 0, out, 4, &a), TEXCACHE_NO_FILE);
    SAYS(texcache_texture_footprint_float(pass, file, &good, 0, 0, 0, 16384, 0, 0, out, 4, &a), TEXCACHE_BAD_REQUEST);
    /* a derivative that is in range, and with its width is not */
    o = good, o.twidth = 16384;
    SAYS(texcache_texture_footprint_float(pass, file, &o, 0, 0, 0, 1, 0, 0, out, 4, &a), TEXCACHE_BAD_REQUEST);
    for (int i = 0; i < 4; i++) IS(out[i] == 9);
    /* no lookup at all */
    r.room = 0;
    SAYS(texcache_texture_results(pass, file, &good, &at, 0, &r, &done, &a), TEXCACHE_OK);
    IS(done == 0 && a.generation == 1);
}

/* ---- many results are as many single ones, across the parts of a call */

static void many(void)
{
    enum { COUNT = 150 };
    static double d[COUNT][6];
    static float many[3 * COUNT], ds[3 * COUNT], dt[3 * COUNT], one[3], one_ds[3], one_dt[3];
    uint32_t file = file_of(cache, "noise.tif");
    texcache_texture_options o = texcache_default_texture_options(3);
    o.sblur = 0.01, o.swidth = 1.5, o.lod_bias = -0.3, o.first_channel = 2, o.fill = 0.125f;
    for (int n = 0; n < COUNT; n++)
        for (int k = 0; k < 6; k++) d[n][k] = k < 2 ? random_number() : 0.2 * random_number() - 0.1;
    for (int kind = 0; kind < 4; kind++) {
        texcache_coordinates at = {&d[0][0], &d[0][1], &d[0][2], &d[0][3], &d[0][4], &d[0][5], 6};
        texcache_results r = {sizeof r, TEXCACHE_FLOAT, 3 * COUNT, many, kind & 2 ? ds : NULL, kind & 2 ? dt : NULL};
        texcache_results single = {sizeof r, TEXCACHE_FLOAT, 3, one, kind & 2 ? one_ds : NULL, kind & 2 ? one_dt : NULL};
        size_t done = 0;
        if (kind & 1) at.dsdx = at.dtdx = at.dsdy = at.dtdy = NULL;
        SAYS(texcache_texture_results(pass, file, &o, &at, COUNT, &r, &done, NULL), TEXCACHE_OK);
        IS(done == COUNT);
        for (int n = 0; n < COUNT; n++) {
            texcache_coordinates of = at;
            of.s = &d[n][0], of.t = &d[n][1];
            if (at.dsdx) of.dsdx = &d[n][2], of.dtdx = &d[n][3], of.dsdy = &d[n][4], of.dtdy = &d[n][5];
            SAYS(texcache_texture_results(pass, file, &o, &of, 1, &single, &done, NULL), TEXCACHE_OK);
            IS(!memcmp(one, many + 3 * n, sizeof one));
            if (kind & 2) IS(!memcmp(one_ds, ds + 3 * n, sizeof one) && !memcmp(one_dt, dt + 3 * n, sizeof one));
        }
    }
}

/* ---- a file with other channels, and the length and time of the one before, which force alone notices */

static void forced(void)
{
    const image grey = {16, 16, 1, 0, 0, two}, wide = {24, 16, 1, 0, 0, two}, colour = {8, 16, 3, 0, 0, two};
    texcache_texture_options o = texcache_default_texture_options(3);
    const struct timespec times[2] = {{1000000000, 5}, {1000000000, 5}};
    char path[4096];
    uint16_t out[3];
    texcache_answer a;
    uint32_t file = file_of(cache, "forced.tif");
    snprintf(path, sizeof path, "%s/forced.tif", folder);
    put_image(folder, "forced.tif", grey);
    o.fill = 1;
    for (int n = 0; n < 4; n++) {
        put_image(folder, "forced.tif", n % 2 ? colour : wide);
        if (utimensat(AT_FDCWD, path, times, 0)) exit(2);
        SAYS(texcache_invalidate(pass, file, true, NULL), TEXCACHE_OK);
        SAYS(texcache_texture(pass, file, &o, 0.5, 0.5, out, 3, &a), TEXCACHE_OK);
        IS(out[0] == 25700 && out[1] == (n % 2 ? 51400 : 65535) && out[2] == (n % 2 ? 51400 : 65535));
    }
}

/* ---- files that are replaced, by ones with other channels: no answer mixes them */

static int ends;

static unsigned value_of(unsigned x, unsigned y, unsigned channel)
{
    (void)x, (void)y;
    return 40 + 10 * channel;
}

static void *looks_up(void *unused)
{
    texcache_pass *own;
    uint32_t file = file_of(cache, "changes.tif");
    texcache_texture_options o = texcache_default_texture_options(4);
    double s[100], t[100];
    float out[400];
    texcache_coordinates at = {s, t, NULL, NULL, NULL, NULL, 1};
    texcache_results r = {sizeof r, TEXCACHE_FLOAT, 400, out, NULL, NULL};
    (void)unused;
    o.grey_to_rgb = 1, o.fill_alpha = 1;
    for (int n = 0; n < 100; n++) s[n] = n / 100.0, t[n] = n % 10 / 10.0;
    SAYS(texcache_this_thread(cache, &own), TEXCACHE_OK);
    while (!__atomic_load_n(&ends, __ATOMIC_RELAXED)) {
        int status = texcache_texture_results(own, file, &o, &at, 100, &r, NULL, NULL);
        IS(status == TEXCACHE_OK || status == TEXCACHE_AGAIN || status == TEXCACHE_READ_FAULT);
        if (status) continue;
        bool is_grey = out[0] == out[1];
        for (int n = 0; n < 100; n++)
            for (int c = 0; c < 4; c++)
                IS(fabs(out[4 * n + c] - (is_grey ? c == 3 ? 1 : 40 / 255.0 : c == 3 ? 1 : (40 + 10 * c) / 255.0)) < 1e-5);
        texcache_invalidate(own, file, false, NULL);
    }
    return NULL;
}

static void replaced(void)
{
    pthread_t ids[3];
    for (int i = 0; i < 3; i++)
        if (pthread_create(&ids[i], NULL, looks_up, NULL)) exit(2);
    for (int n = 0; n < 150; n++) {
        const image grey = {200, 100, 1, 16, 0, value_of}, colour = {200, 100, 3, 16, 0, value_of};
        struct timespec pause = {0, 10000000};
        put_image(folder, "changes.tif", n % 2 ? grey : colour);
        nanosleep(&pause, NULL);
    }
    __atomic_store_n(&ends, 1, __ATOMIC_RELAXED);
    for (int i = 0; i < 3; i++) pthread_join(ids[i], NULL);
}

int main(int count, char **words)
{
    static const struct { const char *name; image image; } images[] = {
        {"noise.tif", {SIDE, SIDE, CHANNELS, 16, 0, noise}}, {"one.tif", {8, 8, 1, 0, 0, two}}, {"two.tif", {8, 8, 2, 0, 0, two}},
        {"three.tif", {8, 8, 3, 0, 0, two}}, {"ramp.tif", {SIDE, SIDE, 3, 0, 0, ramp}}, {"half.tif", {SIDE, SIDE / 2, 3, 16, 0, ramp}}, {"edge.tif", {SIDE, 32, 1, 16, 0, edge}},
        {"packed.tif", {8, 8, 3, 0, 8, two}},
        {"gone.tif", {8, 8, 3, 0, 0, two}}, {"forced.tif", {16, 16, 1, 0, 0, two}}, {"changes.tif", {200, 100, 1, 16, 0, value_of}}};
    char gone[4096];
    if (count != 2) return 2;
    folder = words[1];
    for (size_t i = 0; i < sizeof images / sizeof *images; i++) put_image(folder, images[i].name, images[i].image);
    make_levels();
    if (texcache_open(&cache, folder, NULL) || texcache_find_all(cache, ".", NULL) || texcache_this_thread(cache, &pass)) return 2;
    snprintf(gone, sizeof gone, "%s/gone.tif", folder);
    unlink(gone);
    channels_and_bias();
    grey_as_rgb();
    halves();
    round_footprints();
    blurred_ellipses();
    slopes();
    missing();
    bad_use();
    many();
    forced();
    replaced();
    SAYS(texcache_close(&cache), TEXCACHE_OK);
    printf("%d failed\n", failures);
    return failures != 0;
}
