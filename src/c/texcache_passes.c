/* texcache_passes.c: caches and passes are made and ended, and threads wait for each other. */
#define _POSIX_C_SOURCE 200809L
#include "texcache_inside.h"

#include <sched.h>
#include <stdlib.h>
#include <time.h>

/* How often a thread only yields the processor before it sleeps, and how long it sleeps at most, in nanoseconds. */
#define TEXC_YIELDS 32
#define TEXC_LONGEST 1000000
/* How often a call is repeated because a shard is busy: some ten seconds, of sleeps of a millisecond each. */
#define TEXC_TRIES 10000
/* How many ended passes are kept before their memory is used again. A copy of the pointer is refused meanwhile. */
#define TEXC_SPENT 64

/* ---- waiting */

/* Yields the processor, and after some tries sleeps, longer each time, up to a millisecond. Returns false after `most`
 * tries. */
bool texc_pauses(unsigned *tries, unsigned most)
{
    if (++*tries > most) return false;
    if (*tries <= TEXC_YIELDS) {
        sched_yield();
        return true;
    }
    unsigned doublings = *tries - TEXC_YIELDS;
    struct timespec pause = {0, doublings < 10 ? 1000L << doublings : TEXC_LONGEST};
    nanosleep(&pause, NULL);
    return true;
}

/* Another thread has a shard: try again, unless that was done too often. */
bool texc_waits(unsigned *tries)
{
    return texc_pauses(tries, TEXC_TRIES);
}

/* Whether an unanswered call is repeated: something was supplied, or it is worth another try. */
bool texc_goes_on(texcache_pass *pass, uint32_t code, const texcache_supply_answer *said, texc_tries *tries)
{
    if (code == TEXCACHE_NEEDED) {
        texc_supply(pass, said);
        return true;
    }
    if (code == TEXCACHE_AGAIN || (code == TEXCACHE_READ_FAULT && texc_noted().is_replaced))
        return ++tries->again < TEXC_AGAIN;
    if (code != TEXCACHE_BUSY) return false;
    uint64_t from = texc_now();
    bool goes_on = texc_waits(&tries->busy);
    texc_add(&pass->cache->wait_time, texc_now() - from);
    return goes_on;
}

/* Begins a call in a pass whose counts another thread reads, which takes it less than a microsecond. */
int texc_enter_later(texcache_pass *pass)
{
    int state = TEXC_COUNTED;
    unsigned tries = 0;
    while (state == TEXC_COUNTED && texc_waits(&tries)) {
        state = TEXC_FREE;
        if (__atomic_compare_exchange_n(&pass->state, &state, TEXC_USED, 0, __ATOMIC_ACQUIRE, __ATOMIC_RELAXED))
            return TEXCACHE_OK;
    }
    return state == TEXC_ENDED ? TEXCACHE_CLOSED : TEXCACHE_IN_USE;
}

/* ---- forks. A child has none of the other threads, and their locks may be taken for ever. */

unsigned texc_forks;
static bool texc_is_watching;
static pthread_once_t texc_once = PTHREAD_ONCE_INIT;

static void texc_in_child(void)
{
    texc_forks++;
}

static void texc_watch_forks(void)
{
    texc_is_watching = !pthread_atfork(NULL, NULL, texc_in_child);
}

/* ---- passes */

/* Frees a handle, and sets it to NULL. */
static void texc_end_held(texcache_held *held)
{
    texcache_held none = {NULL};
    if (held->at) tex_c_free(*held, none, held);
}

/* A pass on cache lines of its own, because its thread writes to it at each call; the cache's lock is held. */
static texcache_pass *texc_blank_pass(texcache *cache)
{
    texcache_pass *pass = cache->spent;
    void *at = NULL;
    if (cache->spent_count > TEXC_SPENT) {
        texcache_pass *made_before = pass->made_before;
        if (!(cache->spent = pass->next)) cache->spent_end = &cache->spent;
        cache->spent_count--;
        cache->lookups += pass->lookups;
        memset(pass, 0, sizeof *pass);
        pass->made_before = made_before;
    } else {
        size_t size = (sizeof *pass + TEXC_LINE - 1) / TEXC_LINE * TEXC_LINE;
        if (posix_memalign(&at, TEXC_LINE, size)) return NULL;
        pass = memset(at, 0, size);
        pass->made_before = cache->made;
        cache->made = pass;
    }
    pass->state = TEXC_ENDED;
    pass->cache = cache;
    pass->forks = cache->forks;
    return pass;
}

/* Puts an ended pass without a handle behind the others; the cache's lock is held. */
static void texc_spend(texcache *cache, texcache_pass *pass)
{
    pass->next = NULL;
    *cache->spent_end = pass;
    cache->spent_end = &pass->next;
    cache->spent_count++;
}

/* A handle for a pass: that of an ended one, or a new one; the cache's lock is held. */
static int texc_handle(texcache *cache, texcache_held *held)
{
    texcache_pass *ended = cache->ended;
    if (!ended) return (int)tex_c_split(cache->first, &cache->first, held);
    cache->ended = ended->next;
    *held = ended->held;
    ended->held.at = NULL;
    texc_spend(cache, ended);
    return TEXCACHE_OK;
}

static int texc_make_pass(texcache *cache, bool is_threads, texcache_pass **out)
{
    int refused = TEXCACHE_NO_MEMORY;
    pthread_mutex_lock(&cache->lock);
    texcache_pass *pass = texc_blank_pass(cache);
    if (pass && (refused = texc_handle(cache, &pass->held))) texc_spend(cache, pass);
    if (!refused) {
        pass->is_threads = is_threads;
        pass->owner = pthread_self();
        tex_c_counts(pass->held, &pass->held, &pass->before);
        pass->counted = pass->before;
        texc_leave(pass);
        *out = pass;
    }
    pthread_mutex_unlock(&cache->lock);
    return refused;
}

/* Releases the tiles of a pass in which a call runs. */
static void texc_release_all(texcache_pass *pass)
{
    uint32_t code;
    unsigned tries = 0;
    do {
        code = tex_c_release_tile(pass->held, &pass->held, 0);
    } while (code == TEXCACHE_OK || (code == TEXCACHE_BUSY && texc_waits(&tries)));
}

/* Ends a pass in which a call runs. */
static void texc_end_pass(texcache_pass *pass)
{
    texcache *cache = pass->cache;
    texc_release_all(pass);
    pthread_mutex_lock(&cache->lock);
    __atomic_store_n(&pass->state, TEXC_ENDED, __ATOMIC_RELEASE);
    pass->next = cache->ended;
    cache->ended = pass;
    pthread_mutex_unlock(&cache->lock);
}

/* Ends a call on a cache or pass, and keeps why it failed. */
static int texc_ends(int status, const char *what)
{
    if (status) texc_keep(status, what);
    return status;
}

int texcache_new_pass(texcache *cache, texcache_pass **pass)
{
    if (pass) *pass = NULL;
    if (!cache || !pass) return texc_ends(TEXCACHE_BAD_ARGUMENT, cache ? "pass is NULL" : "cache is NULL");
    return texc_ends(cache->forks == texc_forks ? texc_make_pass(cache, false, pass) : TEXCACHE_FORKED, NULL);
}

int texcache_end(texcache_pass **pass)
{
    int refused = texc_enter(pass ? *pass : NULL);
    if (refused) return texc_ends(refused, "pass is NULL");
    texcache_pass *ending = *pass;
    if (ending->is_threads && !pthread_equal(ending->owner, pthread_self())) {
        texc_leave(ending);
        return texc_ends(TEXCACHE_OTHER_THREAD, NULL);
    }
    if (ending->is_threads) pthread_setspecific(ending->cache->key, NULL);
    texc_end_pass(ending);
    *pass = NULL;
    return TEXCACHE_OK;
}

/* ---- the passes of threads */

/* Ends the pass of a thread that ends. */
static void texc_thread_ends(void *pass)
{
    if (!texc_enter(pass)) texc_end_pass(pass);
}

/* Makes the cache's key, by which a thread finds its pass. */
static int texc_make_key(texcache *cache)
{
    int refused = TEXCACHE_OK;
    pthread_mutex_lock(&cache->lock);
    if (!cache->has_key) {
        if (pthread_key_create(&cache->key, texc_thread_ends)) refused = TEXCACHE_NO_MEMORY;
        else __atomic_store_n(&cache->has_key, 1, __ATOMIC_RELEASE);
    }
    pthread_mutex_unlock(&cache->lock);
    return refused;
}

static int texc_make_threads_pass(texcache *cache, texcache_pass **pass)
{
    int refused = texc_make_key(cache);
    if (!refused) refused = texc_make_pass(cache, true, pass);
    if (!refused && pthread_setspecific(cache->key, *pass)) {
        texc_thread_ends(*pass);
        *pass = NULL;
        refused = TEXCACHE_NO_MEMORY;
    }
    return refused;
}

int texcache_this_thread(texcache *cache, texcache_pass **pass)
{
    if (pass) *pass = NULL;
    if (!cache || !pass) return texc_ends(TEXCACHE_BAD_ARGUMENT, cache ? "pass is NULL" : "cache is NULL");
    if (cache->forks != texc_forks) return texc_ends(TEXCACHE_FORKED, NULL);
    if (__atomic_load_n(&cache->has_key, __ATOMIC_ACQUIRE) && (*pass = pthread_getspecific(cache->key))) return TEXCACHE_OK;
    return texc_ends(texc_make_threads_pass(cache, pass), NULL);
}

/* ---- caches */

texcache_options texcache_default_options(void)
{
    texcache_options o = {sizeof o, UINT64_C(268435456), 16, 256, 100, 64, 1024, true, false, false, NULL, 1000, 0};
    return o;
}

/* Frees a cache in which no call runs. */
static void texc_free(texcache *cache)
{
    if (cache->has_key) pthread_key_delete(cache->key);
    while (cache->made) {
        texcache_pass *pass = cache->made;
        cache->made = pass->made_before;
        texc_end_held(&pass->held);
        free(pass);
    }
    texc_end_held(&cache->first);
    texc_end_files(cache);
    texc_end_paths(cache);
    pthread_mutex_destroy(&cache->names_lock);
    pthread_mutex_destroy(&cache->open_lock);
    pthread_mutex_destroy(&cache->lock);
    free(cache);
}

/* Keeps which option is out of range, its value and what it may be. */
static void texc_keep_option(const texcache_options *o, uint32_t bad)
{
    static const struct { const char *name, *range; } options[] = {
        {"budget", "0 to 1099511627776"}, {"shards", "1 to 64"}, {"passes", "1 to 1024"}, {"handles", "1 to 1024"},
        {"autotile", "0, or a multiple of 16 up to 4096"}, {"slots", "0 to 65536"}, {"tiles_per_shard", "0 to 65536"}};
    const double values[] = {(double)o->budget, o->shards, o->passes, o->handles, o->autotile, o->slots, o->tiles_per_shard};
    if (bad - 1 >= sizeof options / sizeof *options) return;
    texc_fact *fact = texc_keep(TEXCACHE_BAD_OPTIONS, options[bad - 1].name);
    fact->range = options[bad - 1].range;
    fact->number = values[bad - 1];
    fact->answer.detail = bad;
}

/* Opens the folder, and has the library make its cache. */
static int texc_fill(texcache *cache, const char *folder, uint32_t *bad)
{
    const texcache_options *o = &cache->options;
    texcache_supply_options given = {o->budget, o->shards, o->passes, o->handles, o->autotile, o->slots,
                                     o->tiles_per_shard, o->automip};
    texcache_supply_answer answer;
    int refused = texc_open_folders(cache, folder);
    if (refused) {
        texc_keep_name(texc_keep_reading(refused), folder);
        return refused;
    }
    refused = (int)tex_c_new(&cache->first, &given, TEXC_MOST_FILES, &answer);
    if (refused == TEXCACHE_BAD_OPTIONS) texc_keep_option(o, answer.detail);
    else if (refused) texc_keep(refused, NULL);
    if (bad) *bad = answer.detail;
    return refused;
}

/* What is wrong with the arguments of the calls that open a cache, or NULL. */
static const char *texc_wrong_open(texcache **cache, const char *folder, const texcache_options *options)
{
    if (!cache) return "cache is NULL";
    if (!folder) return "folder is NULL";
    if (options->size != sizeof *options) return "the options have another size: texcache_default_options sets it";
    return NULL;
}

int texcache_open_saying(texcache **cache, const char *folder, const texcache_options *options, uint32_t *bad)
{
    texcache_options usual = texcache_default_options();
    if (bad) *bad = 0;
    if (cache) *cache = NULL;
    if (!options) options = &usual;
    const char *wrong = texc_wrong_open(cache, folder, options);
    if (wrong) return texc_ends(TEXCACHE_BAD_ARGUMENT, wrong);
    pthread_once(&texc_once, texc_watch_forks);
    texcache *made = texc_is_watching ? calloc(1, sizeof *made) : NULL;
    if (!made) return texc_ends(TEXCACHE_NO_MEMORY, NULL);
    pthread_mutex_init(&made->names_lock, NULL);
    pthread_mutex_init(&made->open_lock, NULL);
    pthread_mutex_init(&made->lock, NULL);
    made->forks = texc_forks;
    made->folder = -1;
    made->spent_end = &made->spent;
    made->options = *options;
    made->most_idle = texc_most_idle(options->handles);
    int refused = texc_fill(made, folder, bad);
    if (refused) texc_free(made);
    else *cache = made;
    return refused;
}

int texcache_open(texcache **cache, const char *folder, const texcache_options *options)
{
    return texcache_open_saying(cache, folder, options, NULL);
}

/* Takes all passes that have not ended, so that no call begins in them. Takes none, and returns false, if one is left
 * that its thread's end does not end, or that has a call. */
static bool texc_take_passes(texcache *cache)
{
    texcache_pass *pass;
    pthread_mutex_lock(&cache->lock);
    for (pass = cache->made; pass; pass = pass->made_before) {
        bool is_ended = __atomic_load_n(&pass->state, __ATOMIC_ACQUIRE) == TEXC_ENDED;
        if (!is_ended && (!pass->is_threads || texc_enter(pass))) break;
    }
    for (texcache_pass *taken = cache->made; pass && taken != pass; taken = taken->made_before)
        if (__atomic_load_n(&taken->state, __ATOMIC_RELAXED) != TEXC_ENDED) texc_leave(taken);
    pthread_mutex_unlock(&cache->lock);
    return !pass;
}

int texcache_close(texcache **cache)
{
    if (!cache || !*cache) return texc_ends(TEXCACHE_BAD_ARGUMENT, "cache is NULL");
    if ((*cache)->forks != texc_forks) return texc_ends(TEXCACHE_FORKED, NULL);
    if (!texc_take_passes(*cache)) return texc_ends(TEXCACHE_PASSES_LEFT, NULL);
    for (texcache_pass *pass = (*cache)->made; pass; pass = pass->made_before)
        if (pass->state != TEXC_ENDED) texc_release_all(pass);
    texc_free(*cache);
    *cache = NULL;
    return TEXCACHE_OK;
}
