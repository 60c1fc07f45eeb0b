/* texcache.h: textures of folders of TIFF files, for programs in C and C++.
 *
 * Declarations alone; the functions are in libtexcache.a and libtexcache.so.1. How to build and link: docs/INSTALL.md.
 *
 *     texcache *cache;
 *     texcache_pass *pass = NULL;
 *     uint32_t file;
 *     uint16_t rgb[3];
 *     texcache_texture_options options = texcache_default_texture_options(3);
 *     if (texcache_open(&cache, "textures", NULL) == TEXCACHE_OK
 *         && texcache_this_thread(cache, &pass) == TEXCACHE_OK
 *         && texcache_find(cache, "wall.tif", &file) == TEXCACHE_OK) {
 *         int refused = texcache_texture(pass, file, &options, 0.5, 0.5, rgb, 3, NULL);
 *         if (refused) fprintf(stderr, "%s\n", texcache_last_error());
 *     }
 *     texcache_close(&cache);
 *
 * Names are OpenImageIO's if they mean the same; docs/FILTERING.md says what differs.
 *
 * A call that is used wrongly is refused, and nothing happens: an argument is NULL or a struct of options has another
 * size (TEXCACHE_BAD_ARGUMENT), the pass has ended (TEXCACHE_CLOSED), another call runs in it (TEXCACHE_IN_USE), or
 * cache or pass are those of the parent process (TEXCACHE_FORKED). A call with an answer always fills it.
 *
 * What you must see to, because nothing here can test it:
 * - Do not use a closed cache, or a pass of it, through a copy of the pointer. texcache_close sets yours to NULL.
 * - Buffers have the sizes that you say.
 * - Call nothing from a signal handler.
 */
#ifndef TEXCACHE_H
#define TEXCACHE_H

#include <stdbool.h>
#include <stddef.h>
#include <stdint.h>

/* The version of this header, as in the file VERSION. The library has one too: texcache_version(). */
#define TEXCACHE_VERSION "1.0.0-rc6"

/* The calls that open a cache have the version in their symbol. So a program does not link with a library of another
 * version, whose structs and calls may differ: texcache_open_1_0_0_rc6 is then undefined. */
#define TEXCACHE_SYMBOL(name) __asm__(name "_1_0_0_rc6")

#ifdef __cplusplus
extern "C" {
#endif

/* ---- errors */

/* Why a call fails. 0 to 25 are the proved library's numbers, those from 40 on the C part's. */
enum texcache_status {
    TEXCACHE_OK = 0,
    TEXCACHE_NEEDED = 1,            /* the library needs bytes; only calls of texcache_supply.h answer this */
    TEXCACHE_BAD_OPTIONS = 2,       /* detail: 1 budget, 2 shards, 3 passes, 4 handles, 5 autotile, 6 slots,
                                     * 7 tiles_per_shard */
    TEXCACHE_NO_FILE = 3,           /* texcache_find gave no file this number */
    TEXCACHE_BAD_REQUEST = 4,       /* a number is out of range; detail: enum texcache_bad_number, or 0 for a region */
    TEXCACHE_SMALL_BUFFER = 5,      /* value: how many values there are */
    TEXCACHE_NO_PERMIT = 6,         /* the cache has as many passes as it may have */
    TEXCACHE_NOT_LOCAL = 7,         /* the pass's two latest tiles do not have all texels of the lookup */
    TEXCACHE_NOTHING_HELD = 8,      /* no tile is held at that place */
    TEXCACHE_NO_PART = 9,           /* there is no such shard or row */
    TEXCACHE_BAD_FILE = 10,         /* detail: the fault, 1 to 12 (docs/FORMAT.md, "Faults") */
    TEXCACHE_TILE_TOO_LARGE = 11,   /* a cell of the file takes more than 33554432 bytes */
    TEXCACHE_NO_LEVEL = 12,         /* detail: how many levels the file has */
    TEXCACHE_OUTSIDE = 13,          /* the texel is not in the level */
    TEXCACHE_REGION_TOO_LARGE = 14, /* more than 1048576 texels */
    TEXCACHE_HOLDS_FULL = 15,       /* the pass holds four tiles */
    TEXCACHE_AGAIN = 16,            /* the file was replaced each time it was read, 64 times */
    TEXCACHE_READ_FAULT = 17,       /* the file is gone or cannot be read */
    TEXCACHE_NO_MEMORY = 18,
    TEXCACHE_BUSY = 19,             /* other threads used a part of the cache for some ten seconds */
    TEXCACHE_NOT_NEEDED = 20,       /* 20 to 25: a supply that does not match what the library needs */
    TEXCACHE_OTHER_PLACE = 21,
    TEXCACHE_OLDER = 22,
    TEXCACHE_OTHER_GENERATION = 23,
    TEXCACHE_SHORT = 24,
    TEXCACHE_LONG = 25,
    TEXCACHE_NO_FOLDER = 40,        /* the folder cannot be opened or read */
    TEXCACHE_TOO_MANY_FILES = 41,   /* the cache has 4096 files already */
    TEXCACHE_NO_NAME = 42,          /* no plain file is found under this name */
    TEXCACHE_IN_USE = 43,           /* another call runs in this pass */
    TEXCACHE_CLOSED = 44,           /* the pass has ended */
    TEXCACHE_PASSES_LEFT = 45,      /* a pass of the cache has not ended */
    TEXCACHE_FORKED = 46,           /* the cache or pass was made before a fork, and this is the child */
    TEXCACHE_BAD_ARGUMENT = 47,     /* an argument is NULL, or a struct of options has another size */
    TEXCACHE_NO_TILE = 49,          /* a UDIM set has no file for a lookup; detail: the tile, or 0; value: the lookup */
    TEXCACHE_OTHER_THREAD = 48      /* only the thread whose pass texcache_this_thread made may end it */
};

/* The name of an error, in a few words. */
const char *texcache_error_string(int status);

/* Why the calling thread's latest failed call failed: a sentence with the file's name, the system's error if there was
 * one, and for a file that is not accepted its fault and what helps. Empty if no call of the thread has failed.
 *
 * It has at most 2047 bytes and a final 0. A call that succeeds leaves it as it is. The text belongs to the library; it
 * stays until the thread's next failed call, or its end. A name's control characters are shown as question marks. */
const char *texcache_last_error(void);

/* The version of the linked library: that of the file VERSION, with +unproved behind it if nobody proved the library. */
const char *texcache_version(void);

/* What belongs to a result or an error. Other fields are 0. */
typedef struct texcache_answer {
    uint32_t generation;   /* the version of the file */
    uint32_t newer;        /* AGAIN: the newer version */
    uint32_t detail;
    uint32_t part;         /* BAD_FILE: a tag or a level; invalidate_all: the first file that failed */
    uint64_t value;        /* BAD_FILE: a value or an index; BAD_REQUEST: an index; the number of values; invalidate_all:
                            * how many files failed */
    uint32_t channels;     /* get_pixels: the values of each texel */
} texcache_answer;

/* ---- caches and passes */

/* A cache of the files of a folder. Its calls may be made by any thread. */
typedef struct texcache texcache;

/* What one thread has of a cache: the tiles that it holds, its two latest tiles, and its counts. */
typedef struct texcache_pass texcache_pass;

/* The options of a cache. texcache_default_options sets all of them. */
typedef struct texcache_options {
    size_t size;        /* sizeof(texcache_options) */
    uint64_t budget;    /* the bytes that unpinned tiles may take, 0 to 2^40 */
    uint32_t shards;    /* 1 to 64 */
    uint32_t passes;    /* passes at once, 1 to 1024; the cache keeps one for itself */
    uint32_t handles;   /* idle files that stay open, 1 to 1024, at most half of what RLIMIT_NOFILE allows */
    uint32_t autotile;  /* the side of the cells of a stripped level: 0, or a multiple of 16 up to 4096 */
    uint32_t slots;     /* rows kept when a tile finds no memory, 0 to 65536; some 1,100 bytes each */
    bool automip;       /* generate the other levels of a file that stores one */
    bool outside_paths; /* find files outside of the folder and the search path too */
    bool refuse_links;  /* find no file whose path has a symbolic link behind these folders */
    const char *search_path;  /* more folders, separated by colons, or NULL; only texcache_open reads it */
    uint32_t missing_ms;      /* milliseconds for which a file that is gone is not looked for again; 0: always look */
    uint32_t tiles_per_shard; /* tiles that each shard can keep, 0 to 65536; at least 1024 and 7 for each pass */
} texcache_options;

/* The default options, those of the program. */
texcache_options texcache_default_options(void);

/* A cache of the files of a folder and of the search path, which are found when texcache_find asks for them. Options may
 * be NULL. On an error the cache is NULL. */
int texcache_open(texcache **cache, const char *folder, const texcache_options *options)
    TEXCACHE_SYMBOL("texcache_open");

/* The same call, which for BAD_OPTIONS says the number of the first bad option in *bad. */
int texcache_open_saying(texcache **cache, const char *folder, const texcache_options *options, uint32_t *bad)
    TEXCACHE_SYMBOL("texcache_open_saying");

/* Closes a cache and sets the pointer to NULL. Passes of texcache_new_pass must have ended, and no call may run in a pass;
 * otherwise that is TEXCACHE_PASSES_LEFT. Passes of texcache_this_thread end here. No other call of the cache may begin,
 * and no thread that has a pass of it may end meanwhile. */
int texcache_close(texcache **cache);

/* The pass of the calling thread, which is made at the first call and ends with the thread. */
int texcache_this_thread(texcache *cache, texcache_pass **pass);

/* A new pass, which you end. It may move between threads, but serves one call at a time. */
int texcache_new_pass(texcache *cache, texcache_pass **pass);

/* Ends a pass, releases its tiles and sets the pointer to NULL. */
int texcache_end(texcache_pass **pass);

/* ---- files */

/* The number of the file that a name means, which is the same at each call. A cache has numbers for 4096 files.
 *
 * The name is a path: of subfolders too, and also of a file that came after texcache_open. It is looked for in the
 * folder, then in each folder of the search path. The first plain file counts, or link to one; it keeps its number even
 * if it is deleted. Before that a name is made normal by its text alone: ./a.tif, b/../a.tif and a.tif are one file. An
 * absolute path, or one that leaves its folder by `..`, has to lie in one of these folders, unless the option
 * outside_paths is set.
 *
 * TEXCACHE_NO_NAME: no file is found; texcache_last_error says why. TEXCACHE_TOO_MANY_FILES: all numbers are used. */
int texcache_find(texcache *cache, const char *name, uint32_t *file);

/* Finds each plain file that a folder has now, in the order of the names, and says how many there are in *count, which
 * may be NULL. The folder is relative to the cache's, which is "." itself. If all numbers are used, that is
 * TEXCACHE_TOO_MANY_FILES, and the files before keep theirs. */
int texcache_find_all(texcache *cache, const char *folder, uint32_t *count);

/* A name with the mark <UDIM>, as wall.<UDIM>.tif, means a set of files, one for each unit square of s and t: the tile at
 * s and t has the number 1001 + u + 10 * v, where u and v are the whole parts of s and t, rounded down. u is 0 to 9, and
 * the number at most 9999. OpenImageIO's other marks, as <UVTILE>, count too: docs/OPTIONS.md, "UDIM sets". The set has a
 * number, from 2^31 on, which all lookups take. Each lookup is made in the file of its tile, at the rest of s and t. A
 * tile without a file is TEXCACHE_NO_TILE. A cache has at most 1024 sets. */

/* Whether this is the number of a set. */
bool texcache_is_udim(const texcache *cache, uint32_t file);

/* The number of the file of a tile of a set, for the calls that are no lookups. */
int texcache_udim_file(texcache *cache, uint32_t set, uint32_t tile, uint32_t *file);

/* The numbers of the tiles of a set that have a file now, or had one that was found, in their order. *count, which may be
 * NULL, says how many there are. If that is more than `room`, the first are written, and it is TEXCACHE_SMALL_BUFFER. */
int texcache_udim_tiles(texcache *cache, uint32_t set, uint32_t *tiles, size_t room, size_t *count);

/* How many files have been found. Their numbers are below this. */
uint32_t texcache_file_count(const texcache *cache);

/* The path of a file, or NULL if no file has this number: relative to the cache's folder if it is in there, otherwise
 * absolute. It stays as long as the cache. */
const char *texcache_file_name(const texcache *cache, uint32_t file);

/* What a file is. */
typedef struct texcache_info {
    uint32_t width, height, channels, depth, stored, levels;
} texcache_info;

/* Size, channels, depth and levels of a file. The answer may be NULL, here and below. */
int texcache_get_info(texcache_pass *pass, uint32_t file, texcache_info *info, texcache_answer *answer);

/* ---- lookups
 *
 * Coordinates are fractions of the image: s from its left edge across, t from its upper edge down. Derivatives are
 * those of s and t from a pixel to the next one to the right (dsdx, dtdx) and to the next one below (dsdy, dtdy).
 * Each is rounded to 1/2^32 of the image, floor(2^32 * s + 0.5). Ranges:
 *
 *     without derivatives: s, t from -32768 to below 32768
 *     with derivatives:    s, t from -16384 to 16384; derivatives from -16384 to below 16384
 *
 * Other numbers, NaN and infinity are TEXCACHE_BAD_REQUEST, and nothing is looked up. Values are 16-bit, 0 to 65535,
 * whatever the file's depth; a channel is 1.0 at 65535. docs/FILTERING.md says exactly which values.
 *
 * After an error the values are unchanged, except those of texcache_texture_many that stand. */

enum texcache_wrap { TEXCACHE_BLACK, TEXCACHE_CLAMP, TEXCACHE_PERIODIC, TEXCACHE_MIRROR };

enum texcache_filter { TEXCACHE_CLOSEST, TEXCACHE_BILINEAR, TEXCACHE_TRILINEAR };

/* How texture coordinates become values, for one lookup or many. texcache_default_texture_options sets all of it.
 * docs/OPTIONS.md has examples and says exactly what each does. */
typedef struct texcache_texture_options {
    size_t size;            /* sizeof(texcache_texture_options) */
    uint32_t swrap, twrap;  /* enum texcache_wrap */
    uint32_t channels;      /* 1 to 8 */
    uint32_t filter;        /* without derivatives: enum texcache_filter */
    double lod;             /* without derivatives: the level, 0 the largest, -32768 to 65535.99; below 0 it counts as 0 */
    uint32_t max_probes;    /* with derivatives: the most probes along the footprint, 1 to 32, usually 1, 8, 16 or 32 */
    uint32_t first_channel; /* the file's channel that comes first in the results, 0 to 7 */
    double lod_bias;        /* added to the level, -32 to 32. With derivatives the footprint is 2^lod_bias times as large */
    double swidth, twidth;  /* with derivatives: those of s, and of t, are multiplied by this, 0 to 16384 */
    double sblur, tblur;    /* with derivatives: the footprint is longer by this, in fractions of the image, 0 to 16384 */
    uint32_t grey_to_rgb;   /* not 0: a file of one or two channels has grey in its first three, and then alpha */
    float fill;             /* the value of a channel that the file lacks */
    float fill_alpha;       /* the value of channel 3, if the file lacks it */
    const float *missing_color; /* NULL, or `channels` values for files that cannot be read, in place of an error */
} texcache_texture_options;

/* Which number of a lookup is out of range: `detail` of TEXCACHE_BAD_REQUEST. */
enum texcache_bad_number {
    TEXCACHE_BAD_SWRAP = 1,
    TEXCACHE_BAD_TWRAP,
    TEXCACHE_BAD_CHANNELS,
    TEXCACHE_BAD_FILTER,
    TEXCACHE_BAD_LOD,
    TEXCACHE_BAD_MAX_PROBES,
    TEXCACHE_BAD_PLACE, /* a coordinate or a derivative; value: the index of the first such lookup */
    TEXCACHE_BAD_STEP,  /* the step of several lookups is 0 */
    TEXCACHE_BAD_FIRST_CHANNEL,
    TEXCACHE_BAD_LOD_BIAS,
    TEXCACHE_BAD_SWIDTH,
    TEXCACHE_BAD_TWIDTH,
    TEXCACHE_BAD_SBLUR,
    TEXCACHE_BAD_TBLUR,
    TEXCACHE_BAD_TYPE
};

/* The coordinates of many lookups, and their derivatives, or NULL for all four. Those of lookup i are at i * step:
 * with step 1 each is an array of its own, with step 6 all are in one array of structs of six doubles. A step of 0 is
 * refused for several lookups. */
typedef struct texcache_coordinates {
    const double *s, *t;
    const double *dsdx, *dtdx, *dsdy, *dtdy;
    size_t step;
} texcache_coordinates;

/* Options with periodic wraps, the bilinear filter, level 0 and 16 probes. A channel that the file lacks is 0, widths
 * are 1, and a file that cannot be read is an error. */
texcache_texture_options texcache_default_texture_options(uint32_t channels);

/* The values of a lookup at a place, by the filter and in the level of the options: OpenImageIO's `texture` without
 * derivatives. `out` has room for `room` values, at least options->channels. */
int texcache_texture(texcache_pass *pass, uint32_t file, const texcache_texture_options *options, double s, double t,
                     uint16_t *out, size_t room, texcache_answer *answer);

/* The values over a pixel's footprint, the ellipse that its derivatives span: OpenImageIO's `texture` with
 * derivatives. It is trilinear if the footprint is round, or options->max_probes is below 3. Otherwise it is the
 * weighted mean of up to max_probes trilinear probes along the longer axis, always an odd number of them. */
int texcache_texture_footprint(texcache_pass *pass, uint32_t file, const texcache_texture_options *options, double s,
                               double t, double dsdx, double dtdx, double dsdy, double dtdy, uint16_t *out, size_t room,
                               texcache_answer *answer);

/* The values of `count` lookups of one file, those of lookup i from out[i * options->channels] on: exactly those of as
 * many single calls, and all of one generation, which the answer names. With derivatives they are footprints. `out` has
 * room for `room` values.
 *
 * `done`, which may be NULL, says how many lookups stand. After success these are all. If a number is out of range they
 * are none, and nothing was written. After another error the first `done` lookups stand, all of the generation that the
 * answer names; the values behind them are unchanged unless the file was replaced during the call. If it is replaced
 * 64 times during the call, that is TEXCACHE_AGAIN. In a UDIM set each lookup is made in its own tile; lookups of several
 * files or versions have the generation 0. Nothing is allocated, except for tiles that the cache lacks; a call
 * makes parts of at most 64 lookups. */
int texcache_texture_many(texcache_pass *pass, uint32_t file, const texcache_texture_options *options,
                          const texcache_coordinates *at, size_t count, uint16_t *out, size_t room, size_t *done,
                          texcache_answer *answer);

/* What the values of texcache_texture_results are. */
enum texcache_type {
    TEXCACHE_UINT16,  /* uint16_t, 0 to 65535 */
    TEXCACHE_FLOAT,   /* float, 0 to 1: texcache_float of the value */
    TEXCACHE_HALF     /* half floats, each in a uint16_t: the nearest to the float */
};

/* Where results go: `room` values of this type, and of each derivative `room` floats. */
typedef struct texcache_results {
    size_t size;       /* sizeof(texcache_results) */
    uint32_t type;     /* enum texcache_type */
    size_t room;
    void *values;
    float *dresultds, *dresultdt;  /* both, or both NULL: how much a value changes per image across, and down */
} texcache_results;

/* The lookups of texcache_texture_many, as values of any type, with their derivatives if you ask for them: differences
 * of lookups on both sides. docs/OPTIONS.md says over which distance. Such a lookup takes five times as long. */
int texcache_texture_results(texcache_pass *pass, uint32_t file, const texcache_texture_options *options,
                             const texcache_coordinates *at, size_t count, const texcache_results *results, size_t *done,
                             texcache_answer *answer);

/* texcache_texture with floats for values. */
int texcache_texture_float(texcache_pass *pass, uint32_t file, const texcache_texture_options *options, double s, double t,
                           float *out, size_t room, texcache_answer *answer);

/* texcache_texture_footprint with floats for values. */
int texcache_texture_footprint_float(texcache_pass *pass, uint32_t file, const texcache_texture_options *options, double s,
                                     double t, double dsdx, double dtdx, double dsdy, double dtdy, float *out, size_t room,
                                     texcache_answer *answer);

/* A value as a float from 0 to 1. */
float texcache_float(uint16_t value);

/* Values as floats from 0 to 1. */
void texcache_floats(const uint16_t *values, size_t count, float *out);

/* ---- lookups in the units of the program's requests: 1/65536 of the image. A texture that is much enlarged shows
 * these steps; the calls above do not. docs/FILTERING.md, "Footprints", says what texcache_texture_d_fixed filters. */

/* A lookup of the calls that end in _fixed, which have the units of the program's requests. Coordinates and
 * derivatives are in 1/65536 of the image, S from its left edge across and T from its upper edge down; LOD is in
 * 1/65536 of a level, 0 the largest. */
typedef struct texcache_lookup {
    int32_t s, t;
    uint32_t lod;
    uint32_t swrap, twrap;  /* enum texcache_wrap */
    uint32_t filter;        /* enum texcache_filter */
    uint32_t channels;      /* 1 to 8, from channel 0 on */
    int32_t dsdx, dtdx, dsdy, dtdy;  /* of texcache_texture_d_fixed, which takes no LOD and no filter */
} texcache_lookup;

/* A lookup with periodic wraps and the bilinear filter. */
texcache_lookup texcache_lookup_at(int32_t s, int32_t t, uint32_t lod, uint32_t channels);

/* The 16-bit values of a lookup at S, T and LOD. */
int texcache_texture_fixed(texcache_pass *pass, uint32_t file, const texcache_lookup *lookup, uint16_t *out, size_t room,
                           texcache_answer *answer);

/* The 16-bit values of a lookup along a pixel's footprint, by its derivatives. */
int texcache_texture_d_fixed(texcache_pass *pass, uint32_t file, const texcache_lookup *lookup, uint16_t *out,
                             size_t room, texcache_answer *answer);

/* Like texcache_texture_fixed, but only if the pass's two latest tiles have all texels; never reads. Otherwise
 * TEXCACHE_NOT_LOCAL. */
int texcache_texture_local_fixed(texcache_pass *pass, uint32_t file, const texcache_lookup *lookup, uint16_t *out,
                                 size_t room, texcache_answer *answer);

/* ---- regions */

/* A region of a level. Outside the level values are 0. */
typedef struct texcache_region {
    uint32_t level;
    int32_t x, y;
    uint32_t w, h;
} texcache_region;

/* The 16-bit values of a region, row by row, channels side by side. The answer has the channels and the number of
 * values. If the buffer is NULL or too small it is TEXCACHE_SMALL_BUFFER. */
int texcache_get_pixels(texcache_pass *pass, uint32_t file, const texcache_region *region, uint16_t *out, size_t room,
                        texcache_answer *answer);

/* ---- held tiles */

/* A held tile: its rectangle in its level, and its channels. */
typedef struct texcache_tile {
    uint32_t x, y, w, h, channels;
} texcache_tile;

/* Holds the cell of a texel. A pass holds at most four, the oldest at place 0. A held tile stays as it is,
 * whatever happens to the file. */
int texcache_get_tile(texcache_pass *pass, uint32_t file, uint32_t level, uint32_t x, uint32_t y,
                      texcache_answer *answer);

/* The rectangle of the tile that is held at a place. */
int texcache_tile_at(texcache_pass *pass, size_t place, texcache_tile *tile);

/* Its samples, in the depth of the file, row by row. (An 8-bit sample becomes 257 times itself in a lookup.) */
int texcache_tile_texels(texcache_pass *pass, size_t place, uint16_t *out, size_t room);

/* Releases the hold at a place. The later ones move up. */
int texcache_release_tile(texcache_pass *pass, size_t place);

/* ---- replaced files */

/* Looks at a file again. If it was replaced, older versions are dropped. With force that happens in any case, and the
 * file is opened anew. The answer has the newest generation. Of a UDIM set it does so for each file that was found, and
 * then answers as texcache_invalidate_all. */
int texcache_invalidate(texcache_pass *pass, uint32_t file, bool force, texcache_answer *answer);

/* Does so, without force, for each known file, in the order of their numbers, and goes on past a file that fails. It
 * returns the first failure; the answer has its file in `part`, and in `value` how many files failed. */
int texcache_invalidate_all(texcache_pass *pass, texcache_answer *answer);

/* ---- counts */

/* What a pass has counted since it was made: the cells that its lookups needed, those in its two latest tiles, needs that
 * were not cached, and the tiles that it holds. The number of shards is here too. */
typedef struct texcache_counts {
    uint64_t needs, hits, apart, holds;
    uint32_t shards;
} texcache_counts;

/* What a pass has counted, and what all passes of the cache have read. */
typedef struct texcache_statistics {
    texcache_counts pass;
    uint64_t looks, opens, reads, bytes;  /* of all passes */
} texcache_statistics;

/* What a shard has: tiles, pins, the bytes of its unpinned tiles, and how many these may be. */
typedef struct texcache_shard {
    uint32_t tiles, pins;
    uint64_t loose, share;
} texcache_shard;

/* What the pass has counted, and what all passes looked at, opened and read. */
int texcache_stats(texcache_pass *pass, texcache_statistics *out);

/* What one shard has. */
int texcache_shard_stats(texcache_pass *pass, uint32_t shard, texcache_shard *out);

/* What a cache has done since it was opened, as a text for people: OpenImageIO's getstats. Level 1 has totals; level 2
 * and above has a line per used file too, those with the most bytes first. docs/OPTIONS.md says what each number means.
 *
 * `buffer` has `room` bytes; it may be NULL if `room` is 0. `needed`, which may be NULL, says how many bytes the whole
 * text takes, its final 0 included. If `room` is less, and not 0, the text is cut there, and that is
 * TEXCACHE_SMALL_BUFFER. Threads may go on: their counts are those of a moment during the call. */
int texcache_statistics_text(texcache *cache, uint32_t level, char *buffer, size_t room, size_t *needed);

/* The numbers of texcache_statistics_text as JSON, for programs. */
int texcache_statistics_json(texcache *cache, uint32_t level, char *buffer, size_t room, size_t *needed);

#ifdef __cplusplus
}
#endif
#endif
