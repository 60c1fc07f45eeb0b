/* renderer.c: a small renderer over texcache.h. A pinhole camera looks at the planes and balls of a scene. Each pixel is one
 * lookup over the footprint that the rays of its neighbours span.
 *
 *     renderer SCENE OUT.ppm [--search-path FOLDERS] [--threads N] [--width W] [--height H] [--budget BYTES]
 *              [--closest] [--fixed] [--replace TEXTURE FILE] [--progress]
 *
 * SCENE is a text like room.scene. It names its textures by paths, which are looked for in the folder of SCENE, and then in
 * FOLDERS (with colons between them). A path with the mark <UDIM> is a set of files, one for each unit square of s and t.
 *
 * --closest  takes the nearest texel of level 0, without a footprint
 * --fixed    looks up in the units of the program's requests, 1/65536 of the image, and filters as these do
 * --replace  puts FILE in the place of a texture when the upper half is done; the lower half shows it
 * --progress shows how much is done, also if standard error is no terminal
 *
 * The picture is the same for any number of threads. The counts go to standard error. */
#define _XOPEN_SOURCE 700
#include "scene.h"
#include "texcache.h"

#include <pthread.h>
#include <sys/resource.h>
#include <unistd.h>

typedef struct settings {
    const char *scene, *out;
    const char *replaced, *by;   /* the path of a texture, and the file that takes its place */
    int threads;                 /* 0: one for each processor, as far as the library has passes */
    int width, height;
    bool is_closest, is_fixed, shows_progress;
    texcache_options options;
} settings;

/* The texture of an object. */
typedef struct texture {
    uint32_t file;
    uint32_t channels;           /* what a lookup asks for: 1 or 3 */
    bool is_udim;
} texture;

static settings asked;
static scene shown;
static texture textures[MOST_OBJECTS];
static texcache *cache;
static uint8_t *pixels;
static pthread_mutex_t lock = PTHREAD_MUTEX_INITIALIZER;   /* guards what follows */
static int next_row, end_row;
static texcache_statistics totals;

/* ---- lookups */

/* The ray of a place of the picture. */
static vec ray_at(double x, double y)
{
    double scale = 1.2 / asked.width;
    return unit((vec){(x - asked.width * 0.5) * scale, (asked.height * 0.5 - y) * scale, 1});
}

/* Derivatives have to be within 16384 images. At a horizon they may be endless. */
static double bounded(double value)
{
    return value < -16000 ? -16000 : value > 16000 ? 16000 : value;
}

/* The step from one coordinate to that of the next pixel. The longitude of a ball takes the short way round. */
static double step(const object *o, double from, double to, bool is_longitude)
{
    double by = to - from;
    if (o->is_ball && is_longitude) by -= floor(by + 0.5);
    return bounded(by);
}

/* A coordinate in the last tile of a UDIM set, where it would else be in the next one: the far border is in no tile. */
static double inside(double at, double tiles)
{
    return at < tiles ? at : tiles - 1e-9;
}

static texcache_texture_options options_of(const object *o, const texture *of)
{
    texcache_texture_options options = texcache_default_texture_options(of->channels);
    if (of->is_udim) options.swrap = TEXCACHE_CLAMP;
    if (of->is_udim || o->is_ball) options.twrap = TEXCACHE_CLAMP;
    if (asked.is_closest) options.filter = TEXCACHE_CLOSEST;
    return options;
}

/* A lookup in whole numbers: 65536 is one image. */
static int look_up_fixed(texcache_pass *pass, const texture *of, const texcache_texture_options *options, const double n[6],
                         uint16_t *values)
{
    int32_t fixed[6];
    for (int i = 0; i < 6; i++) fixed[i] = (int32_t)floor(65536 * n[i] + 0.5);
    texcache_lookup lookup = texcache_lookup_at(fixed[0], fixed[1], 0, options->channels);
    lookup.swrap = options->swrap, lookup.twrap = options->twrap, lookup.filter = options->filter;
    lookup.dsdx = fixed[2], lookup.dtdx = fixed[3], lookup.dsdy = fixed[4], lookup.dtdy = fixed[5];
    if (asked.is_closest) return texcache_texture_fixed(pass, of->file, &lookup, values, 3, NULL);
    return texcache_texture_d_fixed(pass, of->file, &lookup, values, 3, NULL);
}

/* A lookup of s and t (the first two numbers), over the footprint of the four derivatives behind them. */
static int look_up(texcache_pass *pass, const object *o, const double n[6], uint16_t *values)
{
    const texture *of = &textures[o - shown.objects];
    texcache_texture_options options = options_of(o, of);
    int status = asked.is_fixed     ? look_up_fixed(pass, of, &options, n, values)
                 : asked.is_closest ? texcache_texture(pass, of->file, &options, n[0], n[1], values, 3, NULL)
                                    : texcache_texture_footprint(pass, of->file, &options, n[0], n[1], n[2], n[3], n[4], n[5],
                                                                 values, 3, NULL);
    if (of->channels == 1) values[1] = values[2] = values[0];
    return status;
}

/* The color of a pixel, each part 0 to 1. */
static void shade(texcache_pass *pass, int x, int y, double color[3])
{
    double far, s, t, right_s, right_t, below_s, below_t, lit = 1;
    uint16_t values[3] = {39321, 49151, 62258};   /* the sky */
    vec ray = ray_at(x + 0.5, y + 0.5);
    const object *o = first_met(&shown, ray, &far);
    if (o) {
        place_on(o, ray, &s, &t);
        place_on(o, ray_at(x + 1.5, y + 0.5), &right_s, &right_t);
        place_on(o, ray_at(x + 0.5, y + 1.5), &below_s, &below_t);
        double n[6] = {s, t, step(o, s, right_s, true), step(o, t, right_t, false), step(o, s, below_s, true),
                       step(o, t, below_t, false)};
        if (textures[o - shown.objects].is_udim) n[0] = inside(s, o->across), n[1] = inside(t, o->along);
        if (look_up(pass, o, n, values)) fail(o->texture, texcache_last_error());
        lit = brightness(o, ray, far);
    }
    for (int c = 0; c < 3; c++) color[c] = texcache_float(values[c]) * lit;
}

/* ---- threads */

/* The next row to render, or -1. The lock is not held. */
static int take_row(void)
{
    pthread_mutex_lock(&lock);
    int y = next_row < end_row ? next_row++ : -1;
    bool is_news = y >= 0 && (y + 1) * 100 / asked.height != y * 100 / asked.height;
    if (asked.shows_progress && is_news) fprintf(stderr, "\rrow %d of %d, %d%% ", y + 1, asked.height, (y + 1) * 100 / asked.height);
    pthread_mutex_unlock(&lock);
    return y;
}

/* Adds what the calling thread's pass has counted. Reads and the like are those of all passes already. */
static void add_counts(texcache_pass *pass)
{
    texcache_statistics counts;
    texcache_stats(pass, &counts);
    pthread_mutex_lock(&lock);
    counts.pass.needs += totals.pass.needs;
    counts.pass.hits += totals.pass.hits;
    if (counts.reads < totals.reads)
        counts.looks = totals.looks, counts.opens = totals.opens, counts.reads = totals.reads, counts.bytes = totals.bytes;
    totals = counts;
    pthread_mutex_unlock(&lock);
}

/* What a thread does: row after row, until all are taken. */
static void *render(void *unused)
{
    texcache_pass *pass;
    (void)unused;
    if (texcache_new_pass(cache, &pass)) fail("a pass", texcache_last_error());
    for (int y; (y = take_row()) >= 0;)
        for (int x = 0; x < asked.width; x++) {
            double color[3];
            shade(pass, x, y, color);
            for (int c = 0; c < 3; c++)
                pixels[3 * ((size_t)y * asked.width + x) + c] = (uint8_t)floor(255 * sqrt(color[c] > 1 ? 1 : color[c]) + 0.5);
        }
    add_counts(pass);
    texcache_end(&pass);
    return NULL;
}

/* Renders the rows up to an end. The main thread is one of the threads. */
static void render_rows(int end)
{
    pthread_t *threads = calloc((size_t)asked.threads, sizeof *threads);
    end_row = end;
    if (!threads) fail("the threads", "there is not enough memory");
    for (int i = 1; i < asked.threads; i++)
        if (pthread_create(&threads[i], NULL, render, NULL)) fail("a thread", "the system starts no more");
    render(NULL);
    for (int i = 1; i < asked.threads; i++) pthread_join(threads[i], NULL);
    free(threads);
}

/* ---- the cache and its files */

/* Opens the cache with a pass for each thread, and one that the cache keeps. The library knows how many there may be: fewer
 * are tried only if nobody said how many. */
static void open_cache(void)
{
    char folder[1100], *slash;
    uint32_t bad = 0;
    int status;
    bool may_be_fewer = !asked.threads;
    snprintf(folder, sizeof folder, "%.1000s", asked.scene);
    if ((slash = strrchr(folder, '/'))) slash[slash == folder] = 0;
    else snprintf(folder, sizeof folder, ".");
    if (may_be_fewer) asked.threads = (int)sysconf(_SC_NPROCESSORS_ONLN);
    if (asked.threads < 1) asked.threads = 1;
    do {
        asked.options.passes = (uint32_t)asked.threads + 1;
        status = texcache_open_saying(&cache, folder, &asked.options, &bad);
    } while (may_be_fewer && status == TEXCACHE_BAD_OPTIONS && bad == 3 && --asked.threads);
    if (status) fail(folder, texcache_last_error());
}

/* Finds the file of an object's texture, or the set of files, and how many channels to look up. */
static void find_texture(texcache_pass *pass, const object *o, texture *of)
{
    texcache_info info;
    uint32_t tile;
    int status = texcache_find(cache, o->texture, &of->file);
    uint32_t file = of->file;
    of->is_udim = !status && texcache_is_udim(cache, file);
    if (of->is_udim) {
        /* a set is never empty; its first tile stands for all */
        status = texcache_udim_tiles(cache, of->file, &tile, 1, NULL);
        if (status == TEXCACHE_OK || status == TEXCACHE_SMALL_BUFFER) status = texcache_udim_file(cache, of->file, tile, &file);
    }
    if (!status) status = texcache_get_info(pass, file, &info, NULL);
    if (status) fail(o->texture, texcache_last_error());
    of->channels = info.channels < 3 ? 1 : 3;
}

static void find_textures(void)
{
    texcache_pass *pass;
    if (texcache_new_pass(cache, &pass)) fail("a pass", texcache_last_error());
    for (int i = 0; i < shown.count; i++) find_texture(pass, &shown.objects[i], &textures[i]);
    texcache_end(&pass);
}

static void copy(const char *from_path, const char *to_path)
{
    char block[65536];
    size_t count;
    FILE *from = fopen(from_path, "rb"), *to = fopen(to_path, "wb");
    if (!from) fail(from_path, "it cannot be opened");
    while (to && (count = fread(block, 1, sizeof block, from)) > 0)
        if (fwrite(block, 1, count, to) != count) fail(to_path, "it cannot be written");
    if (!to || fclose(from) || fclose(to)) fail(to_path, "it cannot be written");
}

/* Puts a file in the place of a texture by a rename, so that nobody sees half of it. Then the cache checks all files. */
static void replace_texture(void)
{
    char part[4200], path[4100];
    uint32_t file;
    texcache_pass *pass;
    if (texcache_find(cache, asked.replaced, &file)) fail(asked.replaced, texcache_last_error());
    const char *name = texcache_file_name(cache, file), *slash = strrchr(asked.scene, '/');
    /* the name is relative to the folder of the scene, or absolute */
    snprintf(path, sizeof path, "%.*s%s", *name == '/' || !slash ? 0 : (int)(slash - asked.scene + 1), asked.scene, name);
    snprintf(part, sizeof part, "%s.part", path);
    copy(asked.by, part);
    if (rename(part, path)) fail(path, "it cannot be replaced");
    if (texcache_new_pass(cache, &pass) || texcache_invalidate_all(pass, NULL)) fail(path, texcache_last_error());
    texcache_end(&pass);
    find_textures();
}

/* ---- the program */

static void usage(const char *why)
{
    fprintf(stderr,
            "renderer: %s\n"
            "renderer SCENE OUT.ppm [--search-path FOLDERS] [--threads N] [--width W] [--height H] [--budget BYTES]\n"
            "         [--closest] [--fixed] [--replace TEXTURE FILE] [--progress]\n", why);
    exit(2);
}

static void read_arguments(int count, char **words)
{
    int plain = 0;
    asked = (settings){.width = 640, .height = 400, .shows_progress = isatty(2), .options = texcache_default_options()};
    for (int i = 1; i < count; i++) {
        const char *word = words[i];
        if (!strcmp(word, "--closest")) asked.is_closest = true;
        else if (!strcmp(word, "--fixed")) asked.is_fixed = true;
        else if (!strcmp(word, "--progress")) asked.shows_progress = true;
        else if (strncmp(word, "--", 2)) *(plain++ == 0 ? &asked.scene : &asked.out) = word;
        else if (i + 1 == count) usage("the last argument lacks its value, or is unknown");
        else if (!strcmp(word, "--search-path")) asked.options.search_path = words[++i];
        else if (!strcmp(word, "--threads")) asked.threads = atoi(words[++i]);
        else if (!strcmp(word, "--width")) asked.width = atoi(words[++i]);
        else if (!strcmp(word, "--height")) asked.height = atoi(words[++i]);
        else if (!strcmp(word, "--budget")) asked.options.budget = strtoull(words[++i], NULL, 10);
        else if (!strcmp(word, "--replace") && i + 2 < count) asked.replaced = words[i + 1], asked.by = words[i + 2], i += 2;
        else usage(word);
        if (!strcmp(word, "--threads") && asked.threads < 1) usage("--threads is 1 or more");
    }
    if (plain != 2) usage("a scene and the name of the picture are needed");
    if (asked.width < 1 || asked.width > 16384 || asked.height < 1 || asked.height > 16384)
        usage("--width and --height are 1 to 16384");
}

static void write_picture(void)
{
    size_t count = (size_t)asked.width * asked.height;
    FILE *to = fopen(asked.out, "wb");
    if (!to || fprintf(to, "P6\n%d %d\n255\n", asked.width, asked.height) < 0 || fwrite(pixels, 3, count, to) != count
        || fclose(to))
        fail(asked.out, "it cannot be written");
}

int main(int count, char **words)
{
    struct rusage used;
    read_arguments(count, words);
    read_scene(asked.scene, &shown);
    open_cache();
    find_textures();
    pixels = calloc((size_t)asked.width * asked.height, 3);
    if (!pixels) fail("the picture", "there is not enough memory");
    if (asked.replaced) {
        render_rows(asked.height / 2);
        replace_texture();
    }
    render_rows(asked.height);
    if (asked.shows_progress) fprintf(stderr, "\r\033[K");
    write_picture();
    getrusage(RUSAGE_SELF, &used);
    fprintf(stderr, "%d threads: needs %llu hits %llu looks %llu opens %llu reads %llu bytes %llu, %ld KB at most\n",
            asked.threads, (unsigned long long)totals.pass.needs, (unsigned long long)totals.pass.hits,
            (unsigned long long)totals.looks, (unsigned long long)totals.opens, (unsigned long long)totals.reads,
            (unsigned long long)totals.bytes, used.ru_maxrss);
    free(pixels);
    return texcache_close(&cache);
}
