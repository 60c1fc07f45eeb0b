/* texcache_inside.h: what the C files of the library share: a cache, its files and its passes. Programs do not see it. */
#ifndef TEXCACHE_INSIDE_H
#define TEXCACHE_INSIDE_H

#include "texcache.h"
#include "texcache_supply.h"

#include <pthread.h>
#include <string.h>
#include <sys/stat.h>

/* Functions of one of these files that another one calls, and that the library does not export. */
#define TEXC_HIDDEN __attribute__((visibility("hidden")))
/* So that a call for one lookup has no loops over many: they are compiled for each of the calls. */
#define TEXC_INLINE static inline __attribute__((always_inline))

/* What different threads write is at least this many bytes apart. */
#define TEXC_LINE 128
/* How often a call is repeated because its file was replaced. */
#define TEXC_AGAIN 64
/* How many lookups the library makes at once. */
#define TEXC_PART 64
/* The file of a call on no file. */
#define TEXC_NO_FILE UINT32_MAX
/* The most files of a cache, and the lists by which it finds their names. */
#define TEXC_MOST_FILES 4096
#define TEXC_NAMES 4096
/* The numbers of UDIM sets begin here, and how many a cache has at most. */
#define TEXC_FIRST_SET 0x80000000u
#define TEXC_MOST_SETS 1024
/* The most bytes of a path, with its final 0: the system takes no longer one. */
#define TEXC_PATH 4096
/* The units of a coordinate in an image. */
#define TEXC_FINE 4294967296.0
/* How much of a name is kept for the text of an error, and how long that is at most. */
#define TEXC_NAME 512
#define TEXC_ERROR 2048

typedef struct texc_file texc_file;
typedef struct texc_set texc_set;

/* What failed, and the system's error if there was one. */
typedef struct texc_why {
    const char *what;
    int error_number;
    bool is_replaced;  /* nothing failed but that the file was replaced: it is worth another try */
} texc_why;

/* A folder of the cache: its own, or one of the search path. */
typedef struct texc_folder {
    struct texc_folder *next;
    char path[];   /* from the root on, without a slash at its end */
} texc_folder;

/* A name that was looked for: a path that is relative to the cache's folder, or else begins with a slash. */
typedef struct texc_name {
    struct texc_name *next;  /* with the same hash */
    uint32_t number;         /* of its file or set, or TEXC_NO_FILE; written with names_lock, read by all */
    uint64_t until;          /* until when nobody looks for it again; names_lock guards this and why */
    texc_why why;            /* it was not found */
    char text[];
} texc_name;

/* Where a file is. */
typedef struct texc_place {
    const char *name;  /* as in texc_name */
    size_t root;       /* the bytes of it that name a folder of the search path, with the slash behind it; or 0 */
} texc_place;

/* An open file of one generation. The cache's open_lock guards what follows `generation`. */
typedef struct texc_open {
    int fd;
    uint32_t generation; /* as tex_c_opened said of its descriptor; never written again */
    unsigned users;   /* threads that read from it; if there are none it is idle */
    bool is_old;      /* no longer its file's: the last user closes it */
    texc_file *file;
    struct texc_open *older, *newer;  /* the idle ones before and behind it */
} texc_open;

/* What was counted of the reading of a file. Times are in nanoseconds. */
typedef struct texc_tally {
    uint64_t looks, opens, reads, bytes;
    uint64_t rows;        /* reads of a part of a row: only of stripped files */
    uint64_t again;       /* bytes read more than once in one generation, estimated by texc_sample */
    uint64_t input_time;  /* in looks, opens and reads */
    uint64_t lock_time;   /* waiting for another thread that looks at the file */
} texc_tally;

/* Which bytes of a generation were read: a bit for one byte of each block of `block` bytes. */
typedef struct texc_sampled {
    uint64_t block;
    uint8_t *bits;  /* NULL if nothing was read, or there is no memory */
} texc_sampled;

struct texc_file {
    texc_place place;
    uint64_t errors;       /* calls that failed because of this file */
    pthread_mutex_t lock;  /* guards the next five */
    texcache_version_seen known; /* its newest version, as tex_c_found keeps it */
    uint64_t missing_until;  /* until when nobody looks at it again, because it was not there */
    texc_why why;            /* it was not there */
    texc_tally tally;
    texc_sampled sampled;
    texc_open *open;       /* open at that generation, or NULL; the cache's open_lock guards it */
};

struct texcache {
    unsigned forks;   /* texc_forks when it was made */
    int folder;
    texc_folder *folders;         /* the folder, and those of the search path */
    texc_file *files;             /* room for TEXC_MOST_FILES */
    uint32_t count;               /* those that have a number; written with names_lock, read by texc_count */
    texc_set *sets[TEXC_MOST_SETS]; /* written with names_lock, read by all */
    uint32_t set_count;           /* names_lock guards it */
    uint32_t missing_names;       /* names in the table that had no file when they came into it */
    texc_name *names[TEXC_NAMES]; /* by their hashes, the latest first; written with names_lock, read by all */
    pthread_mutex_t names_lock;
    texcache_options options;
    uint64_t looks, opens, reads, bytes;
    uint64_t wait_time;  /* nanoseconds in which calls waited for a shard */
    uint64_t lookups;    /* of passes whose memory is used again */
    uint32_t forced;     /* how often a file was opened anew, whose facts may then be others in the same generation */

    pthread_mutex_t open_lock;   /* guards the open files; it may be taken while a file's lock is held */
    texc_open *oldest, *newest;  /* the idle ones, by their latest use */
    unsigned idle, most_idle;

    pthread_mutex_t lock;       /* guards what follows */
    texcache_held first;        /* the pass that the others are split from */
    texcache_pass *made;        /* all passes, with those that have ended */
    texcache_pass *ended;       /* ended passes whose handle the next new passes get, the latest first */
    texcache_pass *spent, **spent_end;  /* ended passes without a handle, the oldest first */
    unsigned spent_count;
    int has_key;                /* whether there is a key; set once */
    pthread_key_t key;          /* of the threads' own passes */
};

/* TEXC_COUNTED: another thread reads the pass's counts, which a call that begins waits for. */
enum { TEXC_FREE, TEXC_USED, TEXC_ENDED, TEXC_COUNTED };

/* What a lookup has to know of a file: the facts of one generation, 0 if none is known. */
typedef struct texc_known {
    uint32_t file, generation, forced;  /* the cache's `forced` then */
    texcache_info info;
} texc_known;

struct texcache_pass {
    texcache *cache;
    texcache_held held;
    int state;                /* TEXC_FREE; TEXC_USED while a call runs in it; TEXC_ENDED; TEXC_COUNTED */
    unsigned forks;           /* the cache's */
    uint64_t lookups;         /* written by the pass's thread, read by any */
    texcache_counts counted;  /* what the handle had counted when that was last read; the cache's lock guards it */
    texc_known known;
    bool is_threads;          /* made by texcache_this_thread for its owner */
    pthread_t owner;
    texcache_counts before;   /* what the handle had counted when the pass was made */
    texcache_pass *next;      /* in the list of ended or spent ones */
    texcache_pass *made_before;
};

/* Lookups in a set. */
typedef struct texc_set_job {
    texcache_pass *pass;
    texc_set *set;
    const texcache_texture_options *options;
    const texcache_coordinates *at;
    const texcache_results *results;
    size_t count;
} texc_set_job;

/* How often a call has been repeated. */
typedef struct texc_tries {
    unsigned again, busy;
} texc_tries;

/* A text of bounded length. What does not fit in `room` bytes is only counted. */
typedef struct texc_text {
    char *to;
    size_t room, size;
} texc_text;

/* Why a call failed. texcache_last_error makes words of it. */
typedef struct texc_fact {
    int status, error_number;
    texcache_answer answer;
    const char *what;         /* what is wrong: an argument, an option or a number; or what failed */
    const char *range;        /* what the number may be */
    double number;            /* what it is; the number of a file, place or shard */
    uint64_t given;           /* how many values there is room for, or how many lookups or files there are */
    char name[TEXC_NAME];     /* of the file or folder; empty if there is none */
} texc_fact;

/* How many forks lie between the first process and this one. */
extern unsigned texc_forks TEXC_HIDDEN;

/* texcache_errors.c */
TEXC_HIDDEN void texc_notes(const char *what, int error_number);
TEXC_HIDDEN bool texc_fails(const char *what, int error_number);
TEXC_HIDDEN void texc_notes_replaced(void);
TEXC_HIDDEN texc_why texc_noted(void);
TEXC_HIDDEN texc_fact *texc_keep(int status, const char *what);
TEXC_HIDDEN texc_fact *texc_keep_reading(int status);
TEXC_HIDDEN void texc_keep_name(texc_fact *fact, const char *name);
TEXC_HIDDEN int texc_refuse(const texc_fact *fact, texcache_answer *answer);
TEXC_HIDDEN int texc_refuse_number(uint32_t bad, double number, texcache_answer *answer);
TEXC_HIDDEN texc_fact *texc_keep_place(const char *name, const char *range, uint64_t index, uint64_t count);
TEXC_HIDDEN texc_fact *texc_keep_answer(texcache_pass *pass, uint32_t file, uint32_t code,
                                        const texcache_supply_answer *said);
TEXC_HIDDEN uint64_t texc_keep_index(uint64_t index, uint64_t count);
TEXC_HIDDEN void texc_keep_room(uint64_t room);
TEXC_HIDDEN void texc_keep_sizes(uint64_t room, uint64_t needed);
TEXC_HIDDEN void texc_count_error(texcache_pass *pass, uint32_t file, uint32_t code);
TEXC_HIDDEN bool texc_is_of_file(uint32_t code);
TEXC_HIDDEN void texc_put(texc_text *text, const char *format, ...) __attribute__((format(printf, 2, 3)));
TEXC_HIDDEN void texc_put_name(texc_text *text, const char *name);
TEXC_HIDDEN void texc_put_quoted(texc_text *text, const char *name);
TEXC_HIDDEN void texc_put_error(texc_text *text, uint32_t code, const texcache_answer *answer, const char *name);

/* texcache_lookups.c */
TEXC_HIDDEN uint32_t texc_check_options(const texcache_texture_options *o, bool is_footprint, double *number);
TEXC_HIDDEN uint32_t texc_look_up_part(texcache_pass *pass, const texcache_batch *batch, const texcache_place *places,
                                       size_t count, uint16_t *out, texcache_supply_answer *said);

/* texcache_results.c */
TEXC_HIDDEN int texc_give_missing(const texcache_texture_options *o, const texcache_results *results, size_t count,
                                  uint32_t code, texcache_answer *answer);

/* texcache_posix.c */
TEXC_HIDDEN uint64_t texc_now(void);
TEXC_HIDDEN void texc_add(uint64_t *count, uint64_t by);
TEXC_HIDDEN uint64_t texc_later(const texcache *cache);
TEXC_HIDDEN unsigned texc_most_idle(unsigned handles);
TEXC_HIDDEN int texc_descriptor(texcache *cache, int at, const char *name, int flags);
TEXC_HIDDEN void texc_end_files(texcache *cache);
TEXC_HIDDEN void texc_supply(texcache_pass *pass, const texcache_supply_answer *need);
TEXC_HIDDEN bool texc_is_known(texcache *cache, uint32_t file);
TEXC_HIDDEN void texc_look_anew(texcache *cache, uint32_t file, bool force);

/* texcache_paths.c */
TEXC_HIDDEN int texc_open_folders(texcache *cache, const char *folder);
TEXC_HIDDEN void texc_end_paths(texcache *cache);
TEXC_HIDDEN int texc_find_file(texcache *cache, const char *name, uint32_t *file);
TEXC_HIDDEN int texc_look_at(texcache *cache, const texc_place *place, struct stat *seen);
TEXC_HIDDEN int texc_open_at(texcache *cache, const texc_place *place);
TEXC_HIDDEN bool texc_is_plain(const struct stat *seen);
TEXC_HIDDEN void texc_each_name(texcache *cache, const char *folder, void takes(void *, const char *), void *given);
TEXC_HIDDEN int texc_refuse_names(const texcache *cache, const char *wrong);

/* texcache_udim.c */
TEXC_HIDDEN bool texc_has_mark(const char *name);
TEXC_HIDDEN int texc_make_set(texcache *cache, const char *name, texc_set **out);
TEXC_HIDDEN texc_set *texc_set_of(const texcache *cache, uint32_t number);
TEXC_HIDDEN const char *texc_set_name(const texcache *cache, uint32_t number);
TEXC_HIDDEN bool texc_known_tile(const texcache *cache, uint32_t number, uint32_t tile, uint32_t *file);
TEXC_HIDDEN int texc_look_up_set(const texc_set_job *job, size_t *done, texcache_answer *answer);
TEXC_HIDDEN void texc_enter_tile(const texcache_pass *pass, uint32_t *file, double *s, double *t);
TEXC_HIDDEN int texc_move_to_tile(texcache_pass *pass, uint32_t *file, texcache_lookup *r, texcache_answer *answer);

/* texcache_passes.c */
TEXC_HIDDEN int texc_enter_later(texcache_pass *pass);
TEXC_HIDDEN bool texc_pauses(unsigned *tries, unsigned most);
TEXC_HIDDEN bool texc_waits(unsigned *tries);
TEXC_HIDDEN bool texc_goes_on(texcache_pass *pass, uint32_t code, const texcache_supply_answer *said, texc_tries *tries);

/* Whether a number may be that of a UDIM set. */
static inline bool texc_is_set(uint32_t file)
{
    return file - TEXC_FIRST_SET < TEXC_MOST_SETS;
}

/* How many files of a cache have a number. */
static inline uint32_t texc_count(const texcache *cache)
{
    return __atomic_load_n(&cache->count, __ATOMIC_ACQUIRE);
}

/* The error of a call on a file, as a program sees it. What the library cannot know is here a file that could not be
 * read: that no file has this number yet, or that it was replaced each time. */
static inline uint32_t texc_status(const texcache_pass *pass, uint32_t file, uint32_t code)
{
    if (code != TEXCACHE_READ_FAULT) return code;
    return file >= texc_count(pass->cache) ? TEXCACHE_NO_FILE : texc_noted().is_replaced ? TEXCACHE_AGAIN : TEXCACHE_READ_FAULT;
}

/* Begins a call in a pass, in which only one call at a time may run. */
static inline int texc_enter(texcache_pass *pass)
{
    int state = TEXC_FREE;
    if (!pass) return TEXCACHE_BAD_ARGUMENT;
    if (__builtin_expect(pass->forks != texc_forks, 0)) return TEXCACHE_FORKED;
    if (__builtin_expect(__atomic_compare_exchange_n(&pass->state, &state, TEXC_USED, 0, __ATOMIC_ACQUIRE,
                                                     __ATOMIC_RELAXED), 1))
        return TEXCACHE_OK;
    return state == TEXC_COUNTED ? texc_enter_later(pass) : state == TEXC_ENDED ? TEXCACHE_CLOSED : TEXCACHE_IN_USE;
}

static inline void texc_leave(texcache_pass *pass)
{
    __atomic_store_n(&pass->state, TEXC_FREE, __ATOMIC_RELEASE);
}

/* What belongs to a result or an error, as a program sees it. */
TEXC_INLINE void texc_fill_answer(const texcache_supply_answer *said, texcache_answer *answer)
{
    answer->generation = said->generation;
    answer->newer = said->newer;
    answer->detail = said->detail;
    answer->part = said->part;
    answer->value = said->value;
    answer->channels = said->channels;
}

/* Begins a call in a pass, unless an argument is wrong, which is said by a text. */
TEXC_INLINE int texc_begin(texcache_pass *pass, const char *wrong, texcache_answer *answer)
{
    int status = wrong ? TEXCACHE_BAD_ARGUMENT : texc_enter(pass);
    if (__builtin_expect(status, 0)) return texc_refuse(texc_keep(status, wrong ? wrong : "pass is NULL"), answer);
    return status;
}

/* Ends a call on a file, fills its answer and keeps why it failed. */
TEXC_INLINE int texc_finish(texcache_pass *pass, uint32_t file, uint32_t code, const texcache_supply_answer *said,
                            texcache_answer *answer)
{
    if (__builtin_expect(code != 0, 0)) {
        code = texc_status(pass, file, code);
        texc_keep_answer(pass, file, code, said);
    }
    texc_leave(pass);
    if (answer) texc_fill_answer(said, answer);
    return (int)code;
}

/* floor(scale * value + 0.5) in `out`, if it is from least to most; scale is a power of 2. NaN and infinity have large
 * exponents, which are tested by their bits. */
TEXC_INLINE int texc_scaled(double value, double scale, int64_t least, int64_t most, int64_t *out)
{
    uint64_t bits;
    memcpy(&bits, &value, sizeof bits);
    if (__builtin_expect(bits << 1 >= (uint64_t)(1023 + 17) << 53, 0)) return 0;
    double at = value * scale + 0.5;
    int64_t found = (int64_t)at;
    found -= (double)found > at;
    *out = found;
    return (uint64_t)found - (uint64_t)least <= (uint64_t)most - (uint64_t)least;
}

/* Whether the options that texcache_texture_results is for have their default values, tested by their bits. */
TEXC_INLINE bool texc_is_usual(const texcache_texture_options *o, bool is_footprint)
{
    uint32_t fill, fill_alpha;
    uint64_t bias;
    memcpy(&fill, &o->fill, sizeof fill);
    memcpy(&fill_alpha, &o->fill_alpha, sizeof fill_alpha);
    memcpy(&bias, &o->lod_bias, sizeof bias);
    if (o->first_channel | o->grey_to_rgb | fill | fill_alpha | bias) return false;
    return !is_footprint || (o->swidth == 1 && o->twidth == 1 && o->sblur == 0 && o->tblur == 0);
}

/* The options as the library takes them. Returns whether those that are for the library are in range. */
TEXC_INLINE bool texc_set_batch(const texcache_texture_options *o, uint32_t file, bool is_footprint, texcache_batch *to)
{
    const uint32_t channels = o->first_channel + o->channels;
    int64_t lod = 0;
    if (o->swrap > TEXCACHE_MIRROR || o->twrap > TEXCACHE_MIRROR || o->channels - 1 > 7) return false;
    if (is_footprint) {
        if (o->max_probes - 1 > 31) return false;
    } else if (o->filter > TEXCACHE_TRILINEAR
               || !texc_scaled(o->lod + o->lod_bias, 65536.0, INT32_MIN, UINT32_MAX, &lod)) {
        return false;
    }
    to->file = file;
    to->max_probes = is_footprint ? o->max_probes : 0;
    to->lod = lod < 0 ? 0 : (uint32_t)lod;
    to->filter = is_footprint ? 0 : o->filter;
    to->swrap = o->swrap;
    to->twrap = o->twrap;
    to->channels = channels < 8 ? channels : 8;
    return true;
}

/* What is wrong with the arrays of many lookups, or NULL. */
TEXC_INLINE const char *texc_wrong_coordinates(const texcache_coordinates *at)
{
    if (!at || !at->s || !at->t) return "the coordinates, or their s or t, are NULL";
    if (!at->dsdx != !at->dtdx || !at->dsdx != !at->dsdy || !at->dsdx != !at->dtdy)
        return "some of the derivatives are NULL, and others are not";
    return NULL;
}

/* A value as a float from 0 to 1. */
TEXC_INLINE float texc_float(uint16_t value)
{
    return (float)value / 65535.0f;
}

/* Counts lookups of a pass, in which a call runs. Other threads read the number. */
TEXC_INLINE void texc_count_lookups(texcache_pass *pass, size_t count)
{
    __atomic_store_n(&pass->lookups, pass->lookups + count, __ATOMIC_RELAXED);
}

/* Whether the missing colour stands in place of an error. */
TEXC_INLINE bool texc_gives_missing(const texcache_texture_options *o, uint32_t code)
{
    return o->missing_color && (code == TEXCACHE_NO_FILE || code == TEXCACHE_NO_TILE || texc_is_of_file(code));
}

#endif
