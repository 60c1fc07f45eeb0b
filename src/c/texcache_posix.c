/* texcache_posix.c: reads files for the proved library: it looks at a file, opens it, reads what the
 * library says it needs, and supplies that. */
#define _POSIX_C_SOURCE 200809L
#include "texcache_inside.h"

#include <errno.h>
#include <fcntl.h>
#include <stdlib.h>
#include <sys/resource.h>
#include <sys/stat.h>
#include <time.h>
#include <unistd.h>

/* The least number of bytes that is read at once, if the file has them. */
#define TEXC_BLOCK 16384
/* How often a file is opened anew because it was closed before it was read. */
#define TEXC_OPENS 8
/* How often a thread waits for a descriptor, at most a millisecond each time. */
#define TEXC_WAITS 1000
/* What tex_c_found answers: a version that was not known, and one for which no generation is left. */
enum { TEXC_NEWER = 1, TEXC_USED_UP };
/* The least block of which one byte is sampled, and how many bits a file has for its blocks at most. */
#define TEXC_SAMPLED 4096
#define TEXC_BITS 65536

/* ---- counts */

void texc_add(uint64_t *count, uint64_t by)
{
    __atomic_fetch_add(count, by, __ATOMIC_RELAXED);
}

/* Nanoseconds since some moment. */
uint64_t texc_now(void)
{
    struct timespec now;
    clock_gettime(CLOCK_MONOTONIC, &now);
    return (uint64_t)now.tv_sec * 1000000000u + (uint64_t)now.tv_nsec;
}

/* When a file or name that was not found now is looked for again, in nanoseconds since that moment. */
uint64_t texc_later(const texcache *cache)
{
    return texc_now() + (uint64_t)cache->options.missing_ms * 1000000u;
}

/* Locks a file, and counts how long another thread had it. */
static void texc_lock(texc_file *file)
{
    if (!pthread_mutex_trylock(&file->lock)) return;
    uint64_t from = texc_now();
    pthread_mutex_lock(&file->lock);
    file->tally.lock_time += texc_now() - from;
}

/* The byte of a block that is sampled: another place in each, or a column of an image might have all of them. */
static uint64_t texc_sample(const texc_sampled *sampled, uint64_t number)
{
    return number * sampled->block + (number * 2654435761u >> 7) % sampled->block;
}

/* Marks the sampled bytes that a reading has. Returns how many bytes the ones that were marked before stand for. The
 * file's lock is held. */
static uint64_t texc_mark(texc_file *file, uint64_t at, uint64_t size)
{
    texc_sampled *sampled = &file->sampled;
    uint64_t again = 0;
    if (!sampled->bits) {
        sampled->block = TEXC_SAMPLED;
        while (file->known.stamp.size / sampled->block >= TEXC_BITS) sampled->block *= 2;
        sampled->bits = calloc((size_t)(file->known.stamp.size / sampled->block / 8 + 1), 1);
    }
    if (!sampled->bits || !size || at + size > file->known.stamp.size) return 0;
    for (uint64_t number = at / sampled->block; number <= (at + size - 1) / sampled->block; number++) {
        uint64_t place = texc_sample(sampled, number);
        uint8_t bit = (uint8_t)(1 << number % 8);
        if (place < at || place >= at + size) continue;
        if (sampled->bits[number / 8] & bit) again += sampled->block;
        sampled->bits[number / 8] |= bit;
    }
    return again;
}

/* Forgets which bytes were read, because the file has another generation. */
static void texc_unmark(texc_file *file)
{
    free(file->sampled.bits);
    file->sampled.bits = NULL;
}

/* ---- descriptors. Idle files stay open, up to a number; then the one that was used longest ago is closed. */

/* Takes an open file out of the list of idle ones; open_lock is held. */
static void texc_take_out(texcache *cache, texc_open *open)
{
    *(open->older ? &open->older->newer : &cache->oldest) = open->newer;
    *(open->newer ? &open->newer->older : &cache->newest) = open->older;
    cache->idle--;
}

/* Puts an open file behind the other idle ones; open_lock is held. */
static void texc_put_newest(texcache *cache, texc_open *open)
{
    open->older = cache->newest;
    open->newer = NULL;
    *(cache->newest ? &cache->newest->newer : &cache->oldest) = open;
    cache->newest = open;
    cache->idle++;
}

/* The idle file that was used longest ago, to be closed, or NULL; open_lock is held. */
static texc_open *texc_take_oldest(texcache *cache)
{
    texc_open *open = cache->oldest;
    if (!open) return NULL;
    texc_take_out(cache, open);
    open->file->open = NULL;
    return open;
}

static bool texc_close(texc_open *open)
{
    if (!open) return false;
    close(open->fd);
    free(open);
    return true;
}

/* Closes one idle file. Returns whether there was one. */
static bool texc_close_oldest(texcache *cache)
{
    pthread_mutex_lock(&cache->open_lock);
    texc_open *open = texc_take_oldest(cache);
    pthread_mutex_unlock(&cache->open_lock);
    return texc_close(open);
}

/* Closes a file, at once or when nobody reads it any more. */
static void texc_forget(texcache *cache, texc_file *file)
{
    pthread_mutex_lock(&cache->open_lock);
    texc_open *open = file->open;
    file->open = NULL;
    if (open && open->users) {
        open->is_old = true;
        open = NULL;
    } else if (open) {
        texc_take_out(cache, open);
    }
    pthread_mutex_unlock(&cache->open_lock);
    texc_close(open);
}

/* Gives a file back that was read. Returns whether it still is its file's. */
static bool texc_give_back(texcache *cache, texc_open *open)
{
    texc_open *closed = NULL;
    pthread_mutex_lock(&cache->open_lock);
    bool is_old = open->is_old;
    if (--open->users == 0) {
        if (is_old) closed = open;
        else texc_put_newest(cache, open);
        if (cache->idle > cache->most_idle) closed = texc_take_oldest(cache);
    }
    pthread_mutex_unlock(&cache->open_lock);
    texc_close(closed);
    return !is_old;
}

/* How many idle files may stay open: as the options say, but half of what the process may have is for others. */
unsigned texc_most_idle(unsigned handles)
{
    struct rlimit limit;
    if (getrlimit(RLIMIT_NOFILE, &limit) || limit.rlim_cur / 2 >= handles) return handles;
    return (unsigned)(limit.rlim_cur / 2);
}

/* ---- files */

static uint64_t texc_nanoseconds(const struct timespec *time)
{
    return (uint64_t)time->tv_sec * 1000000000u + (uint64_t)time->tv_nsec;
}

static texcache_stamp texc_stamp_of(const struct stat *seen)
{
    texcache_stamp stamp = {seen->st_dev, seen->st_ino, (uint64_t)seen->st_size, texc_nanoseconds(&seen->st_mtim),
                        texc_nanoseconds(&seen->st_ctim)};
    return stamp;
}

/* Keeps for a while that a file cannot be read, and why; its lock is held. */
static bool texc_miss(const texcache *cache, texc_file *file)
{
    file->missing_until = texc_later(cache);
    file->why = texc_noted();
    return false;
}

/* Looks at a file; its lock is held. Returns whether it is a plain file. */
static bool texc_look(texcache *cache, texc_file *file, struct stat *seen)
{
    uint64_t from = texc_now();
    if (from < file->missing_until) return texc_fails(file->why.what, file->why.error_number);
    texc_add(&cache->looks, 1);
    file->tally.looks++;
    int failed = texc_look_at(cache, &file->place, seen);
    int error_number = errno;
    file->tally.input_time += texc_now() - from;
    if (failed) texc_notes("the file cannot be looked at", error_number);
    return (!failed && texc_is_plain(seen)) || texc_miss(cache, file);
}

/* Looks at a file, and has the library say which generation that is; the file's lock is held. Returns whether it is a plain
 * file. */
static bool texc_settle(texcache *cache, texc_file *file)
{
    struct stat seen;
    if (!texc_look(cache, file, &seen)) return false;
    const texcache_stamp stamp = texc_stamp_of(&seen);
    uint32_t found = tex_c_found(&file->known, &stamp);
    if (found == TEXC_USED_UP) return texc_fails("it was replaced 1048575 times", 0);
    if (found == TEXC_NEWER) {
        texc_forget(cache, file);
        texc_unmark(file);
    }
    return true;
}

/* A descriptor of a file or folder. If the process has no more, idle files are closed, or other threads get time to
 * finish. */
int texc_descriptor(texcache *cache, int at, const char *name, int flags)
{
    unsigned tries = 0;
    for (;;) {
        int fd = openat(at, name, flags);
        if (fd >= 0) return fd;
        if (errno == EINTR) continue;
        if (errno != EMFILE && errno != ENFILE) return -1;
        if (!texc_close_oldest(cache) && !texc_pauses(&tries, TEXC_WAITS)) return -1;
    }
}

/* The generation of the file that a descriptor has, or 0; the file's lock is held. */
static uint32_t texc_opened(const texc_file *file, int fd)
{
    struct stat seen;
    if (fstat(fd, &seen)) {
        texc_notes("the file cannot be looked at", errno);
        return 0;
    }
    const texcache_stamp stamp = texc_stamp_of(&seen);
    uint32_t generation = tex_c_opened(&file->known, &stamp);
    if (!generation) texc_notes_replaced();
    return generation;
}

/* Opens a file at its latest generation, or returns NULL; its lock is held. */
static texc_open *texc_open_file(texcache *cache, texc_file *file)
{
    uint64_t from = texc_now();
    int fd = texc_open_at(cache, &file->place);
    if (fd < 0) {
        texc_notes("the file cannot be opened", errno);
        if (errno != EMFILE && errno != ENFILE) texc_miss(cache, file);
    }
    file->tally.input_time += texc_now() - from;
    if (fd < 0) return NULL;
    texc_add(&cache->opens, 1);
    file->tally.opens++;
    texc_open *open = calloc(1, sizeof *open);
    if (!open) texc_notes("there is no memory to open it", 0);
    if (open) open->generation = texc_opened(file, fd);
    if (!open || !open->generation) {
        close(fd);
        free(open);
        return NULL;
    }
    open->fd = fd;
    open->users = 1;
    open->file = file;
    pthread_mutex_lock(&cache->open_lock);
    file->open = open;
    pthread_mutex_unlock(&cache->open_lock);
    return open;
}

/* The file, open at its latest generation, to be read; its lock is held. */
static texc_open *texc_take(texcache *cache, texc_file *file)
{
    pthread_mutex_lock(&cache->open_lock);
    texc_open *open = file->open;
    if (open && open->users++ == 0) texc_take_out(cache, open);
    pthread_mutex_unlock(&cache->open_lock);
    return open ? open : texc_open_file(cache, file);
}

/* Lets the next call look at a file, even if it was not there a short while ago. With force it is closed too, so that the
 * next reading opens what has its name then. */
void texc_look_anew(texcache *cache, uint32_t number, bool force)
{
    if (number >= texc_count(cache)) return;
    texc_file *file = &cache->files[number];
    texc_lock(file);
    file->missing_until = 0;
    pthread_mutex_unlock(&file->lock);
    if (force) texc_forget(cache, file);
}

/* Whether a file has been looked at. */
bool texc_is_known(texcache *cache, uint32_t file)
{
    texc_lock(&cache->files[file]);
    bool is_known = cache->files[file].known.generation != 0;
    pthread_mutex_unlock(&cache->files[file].lock);
    return is_known;
}

/* ---- what the library needs */

/* Rows, and how many bytes they have together. A single stretch is one row. */
typedef struct texc_wanted {
    texcache_rows rows;
    size_t size;
} texc_wanted;

static texc_wanted texc_want(const texcache_supply_answer *need)
{
    texc_wanted w = {{need->need_file, need->need_generation, need->need_at, need->need_stride, need->need_row},
                     (size_t)need->need_least};
    if (need->need == 2) {
        uint64_t wanted = need->need_least < TEXC_BLOCK ? TEXC_BLOCK : need->need_least;
        w.size = (size_t)(wanted < need->need_most ? wanted : need->need_most);
        w.rows.stride = w.rows.row = w.size;
    }
    return w;
}

/* Reads until the buffer is full. Returns whether it is, and notes why not. */
static bool texc_pread(int fd, uint8_t *to, size_t count, uint64_t at)
{
    size_t done = 0;
    while (done < count) {
        ssize_t got = pread(fd, to + done, count - done, (off_t)(at + done));
        if (got < 0 && errno == EINTR) continue;
        if (got < 0) return texc_fails("the file cannot be read", errno);
        if (got == 0) return texc_fails("the file ended before the bytes that are needed", 0);
        done += (size_t)got;
    }
    return true;
}

/* The bytes of a row of what is wanted, or of the single stretch. */
static size_t texc_row(const texc_wanted *w)
{
    return w->rows.stride == w->rows.row ? w->size : (size_t)w->rows.row;
}

/* Reads what the library needs from an open file into the buffer. Returns whether all was read. */
static bool texc_read(texcache *cache, int fd, const texc_wanted *w, uint8_t *to)
{
    size_t row = texc_row(w);
    uint64_t at = w->rows.at;
    for (size_t done = 0; done < w->size; done += row, at += w->rows.stride) {
        texc_add(&cache->reads, 1);
        if (!texc_pread(fd, to + done, row, at)) return false;
    }
    texc_add(&cache->bytes, w->size);
    return true;
}

/* Counts what was read from a file; its lock is held. Returns what texc_read did. */
static bool texc_count_read(texc_file *file, const texc_wanted *w, uint64_t time, bool is_read)
{
    texc_tally *tally = &file->tally;
    size_t row = texc_row(w);
    uint64_t at = w->rows.at;
    bool is_latest = file->known.generation == w->rows.generation;
    tally->input_time += time;
    if (!is_read) return false;
    tally->bytes += w->size;
    for (size_t done = 0; done < w->size; done += row, at += w->rows.stride) {
        tally->reads++;
        tally->rows += row < w->rows.stride;
        if (is_latest) tally->again += texc_mark(file, at, row);
    }
    return true;
}

/* Reads from a file while it has the generation that is needed; its lock is held, and given up while it reads. `is_there`
 * says whether the file exists then. Returns whether the library says that the bytes are those of that generation. If the
 * file was closed meanwhile, because it is to be opened anew, it is read again. */
static bool texc_read_version(texcache *cache, texc_file *file, const texc_wanted *w, uint8_t *to, bool *is_there)
{
    bool is_read, is_own;
    uint32_t opened = 0;
    unsigned tries = 0;
    *is_there = texc_settle(cache, file);
    do {
        texc_open *open = *is_there && file->known.generation == w->rows.generation ? texc_take(cache, file) : NULL;
        is_read = is_own = false;
        if (open) {
            pthread_mutex_unlock(&file->lock);
            uint64_t from = texc_now();
            is_read = texc_read(cache, open->fd, w, to);
            from = texc_now() - from;
            texc_lock(file);
            is_read = texc_count_read(file, w, from, is_read);
            opened = open->generation;
            is_own = texc_give_back(cache, open);
        }
        *is_there = texc_settle(cache, file);
        if (!open) return false;
    } while (!is_own && ++tries < TEXC_OPENS);
    if (!is_own) texc_notes_replaced();
    return *is_there && is_read && is_own && tex_c_may_answer(&file->known, opened, w->rows.generation);
}

/* Reads the bytes or rows that the library needs into one of its buffers, and supplies them. If the file has a newer
 * generation, that is supplied instead; if it cannot be read, nothing is. */
static uint32_t texc_supply_bytes(texcache_pass *pass, const texcache_supply_answer *need)
{
    texcache *cache = pass->cache;
    texc_file *file = &cache->files[need->need_file];
    texc_wanted w = texc_want(need);
    texcache_room room = {NULL};
    uint8_t *bytes;
    bool is_there;
    uint32_t code = tex_c_room(pass->held, &pass->held, w.size, &room, &bytes);
    if (code) texc_notes("there is no memory for the bytes of the file", 0);
    if (code) return code;
    texc_lock(file);
    bool is_read = texc_read_version(cache, file, &w, bytes, &is_there);
    uint32_t generation = file->known.generation;
    uint64_t len = file->known.stamp.size;
    pthread_mutex_unlock(&file->lock);
    if (is_read && need->need == 2)
        return tex_c_supply_bytes(pass->held, &pass->held, w.rows.file, generation, w.rows.at, room);
    if (is_read) return tex_c_supply_rows(pass->held, &pass->held, &w.rows, room);
    tex_c_give_back(pass->held, &pass->held, room);
    if (is_there && generation > need->need_generation)
        return tex_c_supply_look(pass->held, &pass->held, need->need_file, generation, len);
    return TEXCACHE_READ_FAULT;
}

/* Looks at a file, and supplies its generation and length. */
static uint32_t texc_supply_look(texcache_pass *pass, uint32_t number)
{
    texc_file *file = &pass->cache->files[number];
    texc_lock(file);
    bool is_there = texc_settle(pass->cache, file);
    uint32_t generation = file->known.generation;
    uint64_t len = file->known.stamp.size;
    pthread_mutex_unlock(&file->lock);
    if (!is_there) return TEXCACHE_READ_FAULT;
    return tex_c_supply_look(pass->held, &pass->held, number, generation, len);
}

/* Supplies what the library needs, or says that it cannot be read. */
void texc_supply(texcache_pass *pass, const texcache_supply_answer *need)
{
    texc_notes(NULL, 0);
    uint32_t code = need->need_file >= texc_count(pass->cache) ? TEXCACHE_READ_FAULT : need->need == 1 ? texc_supply_look(pass, need->need_file) : texc_supply_bytes(pass, need);
    if (code) tex_c_supply_fault(pass->held, &pass->held);
}

/* Closes all files, and frees what is known of them. */
void texc_end_files(texcache *cache)
{
    while (texc_close_oldest(cache)) {}
    for (uint32_t n = 0; n < cache->count; n++) {
        pthread_mutex_destroy(&cache->files[n].lock);
        texc_unmark(&cache->files[n]);
    }
    free(cache->files);
}
