/* texcache_errors.c: why a thread's latest failed call failed, in words. A call that fails only keeps the facts;
 * texcache_last_error makes the words of them. */
#define _POSIX_C_SOURCE 200809L
#include "texcache_inside.h"

#include <inttypes.h>
#include <stdarg.h>
#include <stdio.h>

/* The name of a TIFF field. */
typedef struct texc_field {
    uint32_t tag;
    const char *name;
} texc_field;

/* The words for a fault of a file. */
typedef struct texc_words {
    uint32_t fault, part;
    uint64_t value;
    const char *means, *helps;
} texc_words;

#include "texcache_faults.h"

/* An error: its number, its name, and a sentence; NULL if the sentence is made of the facts. */
typedef struct texc_error {
    int status;
    const char *name, *sentence;
} texc_error;

static const texc_error texc_errors[] = {
    {TEXCACHE_OK, "ok", ""},
    {TEXCACHE_NEEDED, "bytes are needed", "the library needs bytes"},
    {TEXCACHE_BAD_OPTIONS, "an option is out of range", NULL},
    {TEXCACHE_NO_FILE, "no such file", NULL},
    {TEXCACHE_BAD_REQUEST, "a number is out of range", NULL},
    {TEXCACHE_SMALL_BUFFER, "buffer too small", NULL},
    {TEXCACHE_NO_PERMIT, "too many passes",
     "the cache has all the passes that its option passes allows; it keeps one of them for itself"},
    {TEXCACHE_NOT_LOCAL, "not in the two latest tiles", "the pass's two latest tiles do not have all texels of the lookup"},
    {TEXCACHE_NOTHING_HELD, "nothing held", NULL},
    {TEXCACHE_NO_PART, "no such shard or row", NULL},
    {TEXCACHE_BAD_FILE, "bad file", NULL},
    {TEXCACHE_TILE_TOO_LARGE, "tile too large", "a cell of the file takes more than 33554432 bytes. What helps: a smaller "
                                                "option autotile, or smaller tiles in the file"},
    {TEXCACHE_NO_LEVEL, "no level", NULL},
    {TEXCACHE_OUTSIDE, "outside", "the level has no such texel"},
    {TEXCACHE_REGION_TOO_LARGE, "region too large", "the region has more than 1048576 texels"},
    {TEXCACHE_HOLDS_FULL, "holds full", "the pass holds four tiles: release one first"},
    {TEXCACHE_AGAIN, "again", "the file was replaced each time it was read, 64 times"},
    {TEXCACHE_READ_FAULT, "read fault", NULL},
    {TEXCACHE_NO_MEMORY, "no memory", "there is not enough memory"},
    {TEXCACHE_BUSY, "busy", "other threads used a part of the cache for some ten seconds"},
    {TEXCACHE_NOT_NEEDED, "supply not needed", "what was supplied was not needed"},
    {TEXCACHE_OTHER_PLACE, "supply for another place", "what was supplied is from another place than what was needed"},
    {TEXCACHE_OLDER, "supply of an older version", "what was supplied is of an older version of the file"},
    {TEXCACHE_OTHER_GENERATION, "supply of another version", "what was supplied is of another version of the file"},
    {TEXCACHE_SHORT, "supply too short", "fewer bytes were supplied than were needed"},
    {TEXCACHE_LONG, "supply too long", "more bytes were supplied than were needed"},
    {TEXCACHE_NO_FOLDER, "folder cannot be read", NULL},
    {TEXCACHE_TOO_MANY_FILES, "too many files", "the cache has 4096 files or 1024 UDIM sets, and can have no more"},
    {TEXCACHE_NO_NAME, "no such name", NULL},
    {TEXCACHE_IN_USE, "pass in use", "another call runs in this pass: each thread needs a pass of its own"},
    {TEXCACHE_CLOSED, "the pass has ended", "the pass has ended"},
    {TEXCACHE_PASSES_LEFT, "a pass has not ended",
     "a pass of texcache_new_pass has not ended, or a call runs in a pass: end all passes first"},
    {TEXCACHE_FORKED, "cache or pass of the parent process",
     "the cache was opened before a fork, and this is the child: it needs a cache of its own"},
    {TEXCACHE_BAD_ARGUMENT, "an argument is NULL or of another size", NULL},
    {TEXCACHE_NO_TILE, "no such UDIM tile", NULL},
    {TEXCACHE_OTHER_THREAD, "pass of another thread", "only the thread whose pass it is may end it"},
};

/* The numbers of a lookup, by enum texcache_bad_number, and what they may be. */
static const struct { const char *name, *range; } texc_numbers[] = {
    {"", ""}, {"swrap", "0 to 3"}, {"twrap", "0 to 3"}, {"channels", "1 to 8"}, {"filter", "0 to 2"},
    {"lod", "-32768 to 65535.99"}, {"max_probes", "1 to 32"}, {"a coordinate or a derivative", "in its range"},
    {"step", "at least 1 for several lookups"}, {"first_channel", "0 to 7"}, {"lod_bias", "-32 to 32"},
    {"swidth", "0 to 16384"}, {"twidth", "0 to 16384"}, {"sblur", "0 to 16384"}, {"tblur", "0 to 16384"},
    {"type", "0 to 2"},
};

static __thread texc_fact texc_latest;
/* What failed in the latest reading of the thread, and the system's error. */
static __thread texc_why texc_failed;

/* ---- keeping the facts */

/* Notes what failed while a file was read; NULL if a reading begins. */
void texc_notes(const char *what, int error_number)
{
    const texc_why why = {what, error_number, false};
    texc_failed = why;
}

/* Notes what failed. */
bool texc_fails(const char *what, int error_number)
{
    texc_notes(what, error_number);
    return false;
}

/* Notes that nothing failed but that a file was replaced. */
void texc_notes_replaced(void)
{
    texc_notes("the file was replaced while it was read", 0);
    texc_failed.is_replaced = true;
}

texc_why texc_noted(void)
{
    return texc_failed;
}

/* Begins the facts of an error. Those that are not given are blank. */
texc_fact *texc_keep(int status, const char *what)
{
    texc_fact *fact = &texc_latest;
    memset(fact, 0, offsetof(texc_fact, name) + 1);
    fact->status = status;
    fact->what = what;
    return fact;
}

/* Keeps a name, or its beginning, which does not end within a character of UTF-8. */
void texc_keep_name(texc_fact *fact, const char *name)
{
    size_t size = strnlen(name, TEXC_NAME - 1);
    while (size && name[size] && ((unsigned char)name[size] & 0xc0) == 0x80) size--;
    memcpy(fact->name, name, size);
    fact->name[size] = 0;
}

/* Ends a call that fails before it reaches the library. */
int texc_refuse(const texc_fact *fact, texcache_answer *answer)
{
    if (answer) *answer = fact->answer;
    return fact->status;
}

/* Ends a call because a number is out of range. */
int texc_refuse_number(uint32_t bad, double number, texcache_answer *answer)
{
    texc_fact *fact = texc_keep(TEXCACHE_BAD_REQUEST, texc_numbers[bad].name);
    fact->range = texc_numbers[bad].range;
    fact->number = number;
    fact->answer.detail = bad;
    return texc_refuse(fact, answer);
}

/* Keeps which coordinate or derivative that is, and of which of `count` lookups. */
texc_fact *texc_keep_place(const char *name, const char *range, uint64_t index, uint64_t count)
{
    texc_latest.what = name;
    texc_latest.range = range;
    texc_latest.answer.value = index;
    texc_latest.given = count;
    return &texc_latest;
}

/* Whether an error is one of the file, and not of the call. */
bool texc_is_of_file(uint32_t code)
{
    return code == TEXCACHE_BAD_FILE || code == TEXCACHE_TILE_TOO_LARGE || code == TEXCACHE_READ_FAULT;
}

void texc_count_error(texcache_pass *pass, uint32_t file, uint32_t code)
{
    if (file < texc_count(pass->cache) && texc_is_of_file(code)) texc_add(&pass->cache->files[file].errors, 1);
}

/* Begins the facts of an error, with what failed in the latest reading of the thread. */
texc_fact *texc_keep_reading(int status)
{
    texc_fact *fact = texc_keep(status, texc_failed.what);
    fact->error_number = texc_failed.error_number;
    return fact;
}

/* Keeps why a call in a pass failed, as the library says it. */
texc_fact *texc_keep_answer(texcache_pass *pass, uint32_t file, uint32_t code, const texcache_supply_answer *said)
{
    texcache *cache = pass->cache;
    texc_fact *fact = code == TEXCACHE_READ_FAULT ? texc_keep_reading((int)code) : texc_keep((int)code, NULL);
    texc_fill_answer(said, &fact->answer);
    fact->number = file;
    fact->given = texc_count(cache);
    const char *name = texcache_file_name(cache, file);
    if (name) texc_keep_name(fact, name);
    texc_count_error(pass, file, code);
    return fact;
}

/* Keeps the index of the lookup that failed, and of how many. Returns the index. */
uint64_t texc_keep_index(uint64_t index, uint64_t count)
{
    texc_latest.given = count;
    return texc_latest.answer.value = index;
}

/* Keeps how many values a buffer has room for, after TEXCACHE_SMALL_BUFFER. */
void texc_keep_room(uint64_t room)
{
    texc_latest.given = room;
}

/* Keeps that, and how many values are needed. */
void texc_keep_sizes(uint64_t room, uint64_t needed)
{
    texc_latest.given = room;
    texc_latest.answer.value = needed;
}

/* ---- the words */

/* Adds to a text. */
void texc_put(texc_text *text, const char *format, ...)
{
    size_t left = text->size < text->room ? text->room - text->size : 0;
    va_list words;
    va_start(words, format);
    int more = vsnprintf(left ? text->to + text->size : NULL, left, format, words);
    va_end(words);
    if (more > 0) text->size += (size_t)more;
}

/* Adds a name, in which nothing controls a terminal. */
void texc_put_name(texc_text *text, const char *name)
{
    for (; *name; name++) texc_put(text, "%c", (unsigned char)*name < 32 || *name == 127 ? '?' : *name);
}

/* Adds a name as a shell takes it for one word. */
void texc_put_quoted(texc_text *text, const char *name)
{
    static const char plain[] = "abcdefghijklmnopqrstuvwxyzABCDEFGHIJKLMNOPQRSTUVWXYZ0123456789_@%+=:,./-";
    if (!name[strspn(name, plain)]) {
        texc_put(text, "%s", name);
        return;
    }
    texc_put(text, "'");
    for (; *name; name++) {
        char one[2] = {*name, 0};
        if (*name == '\'') texc_put(text, "'\"'\"'");
        else texc_put_name(text, one);
    }
    texc_put(text, "'");
}

/* Adds the name of a field of a TIFF. */
static void texc_put_field(texc_text *text, uint32_t tag)
{
    for (size_t i = 0; i < sizeof texc_fields / sizeof *texc_fields; i++)
        if (texc_fields[i].tag == tag) {
            texc_put(text, "%s", texc_fields[i].name);
            return;
        }
    texc_put(text, "field %" PRIu32, tag);
}

/* Adds words of texcache_faults.h, with the facts in place of what is in braces. */
static void texc_put_words(texc_text *text, const char *words, const texc_fact *fact)
{
    for (; *words; words++) {
        if (*words != '{') {
            texc_put(text, "%c", *words);
            continue;
        }
        switch (words[1]) {
        case 'n': texc_put_quoted(text, fact->name); break;
        case 'f': texc_put_field(text, fact->answer.part); break;
        case 'v': texc_put(text, "%" PRIu64, fact->answer.value); break;
        default: texc_put(text, "%" PRIu32, fact->answer.part);
        }
        words = strchr(words, '}');
    }
}

/* Adds what is wrong with a file, and what helps. */
static void texc_put_fault(texc_text *text, const texc_fact *fact)
{
    const texcache_answer *a = &fact->answer;
    for (size_t i = 0; i < sizeof texc_faults / sizeof *texc_faults; i++) {
        const texc_words *it = &texc_faults[i];
        if (it->fault != a->detail || (it->part && it->part != a->part) || (it->value && it->value != a->value)) continue;
        texc_put(text, "the file is not accepted: ");
        texc_put_words(text, it->means, fact);
        texc_put(text, ". What helps: ");
        texc_put_words(text, it->helps, fact);
        return;
    }
}

/* Adds what is wrong with a number. */
static void texc_put_number(texc_text *text, const texc_fact *fact)
{
    if (fact->given > 1) texc_put(text, "lookup %" PRIu64 ": ", fact->answer.value);
    texc_put(text, "%s is ", fact->what);
    if (fact->number != fact->number) texc_put(text, "not a number");
    else texc_put(text, "%.17g", fact->number);
    texc_put(text, "; it may be %s", fact->range);
}

/* Adds what failed, and the system's error. */
static void texc_put_failure(texc_text *text, const texc_fact *fact)
{
    char words[256];
    texc_put(text, "%s", fact->what ? fact->what : "the file was replaced each time it was read");
    if (fact->error_number && !strerror_r(fact->error_number, words, sizeof words)) texc_put(text, ": %s", words);
}

/* Adds which tile is missing, for which lookup. */
static void texc_put_tile(texc_text *text, const texc_fact *fact)
{
    const texcache_answer *a = &fact->answer;
    if (fact->given > 1) texc_put(text, "lookup %" PRIu64 ": ", a->value);
    if (!a->detail) {
        texc_put(text, "there is no such tile: s may be from 0 to below 10, t from 0 on, and the number at most 9999");
        return;
    }
    texc_put(text, "tile %" PRIu32 ": ", a->detail);
    texc_put_failure(text, fact);
}

/* Adds the sentence of an error that is made of its facts. */
static void texc_put_facts(texc_text *text, const texc_fact *fact)
{
    const texcache_answer *a = &fact->answer;
    switch (fact->status) {
    case TEXCACHE_BAD_OPTIONS:
    case TEXCACHE_BAD_REQUEST: texc_put_number(text, fact); break;
    case TEXCACHE_NO_TILE: texc_put_tile(text, fact); break;
    case TEXCACHE_NO_FILE:
        if (fact->name[0]) texc_put(text, "this is a UDIM set: texcache_udim_file says the file of one of its tiles");
        else texc_put(text, "no file has the number %.0f: there are %" PRIu64, fact->number, fact->given);
        break;
    case TEXCACHE_SMALL_BUFFER:
        texc_put(text, "the buffer has room for %" PRIu64 " %s, and %" PRIu64 " are needed", fact->given,
                 fact->what ? fact->what : "values", a->value);
        break;
    case TEXCACHE_NOTHING_HELD: texc_put(text, "the pass holds no tile at place %.0f", fact->number); break;
    case TEXCACHE_NO_PART: texc_put(text, "the cache has no shard %.0f", fact->number); break;
    case TEXCACHE_BAD_FILE: texc_put_fault(text, fact); break;
    case TEXCACHE_NO_LEVEL: texc_put(text, "the file has %" PRIu32 " levels, counted from 0", a->detail); break;
    case TEXCACHE_READ_FAULT:
    case TEXCACHE_NO_NAME:
    case TEXCACHE_NO_FOLDER: texc_put_failure(text, fact); break;
    default: texc_put(text, "%s", fact->what ? fact->what : "unknown");
    }
}

static const texc_error *texc_error_of(int status)
{
    for (size_t i = 0; i < sizeof texc_errors / sizeof *texc_errors; i++)
        if (texc_errors[i].status == status) return &texc_errors[i];
    return NULL;
}

const char *texcache_error_string(int status)
{
    const texc_error *error = texc_error_of(status);
    return error ? error->name : "unknown";
}

/* Adds the sentence of an error, without the file's name. */
static void texc_put_sentence(texc_text *text, const texc_fact *fact)
{
    const texc_error *error = texc_error_of(fact->status);
    if (error && error->sentence) texc_put(text, "%s", error->sentence);
    else texc_put_facts(text, fact);
}

/* Adds the sentence of an error of a file. */
void texc_put_error(texc_text *text, uint32_t code, const texcache_answer *answer, const char *name)
{
    texc_fact fact = {(int)code, 0, *answer, NULL, NULL, 0, 0, ""};
    texc_keep_name(&fact, name);
    texc_put_sentence(text, &fact);
}

const char *texcache_last_error(void)
{
    static __thread char words[TEXC_ERROR];
    texc_text text = {words, sizeof words, 0};
    words[0] = 0;
    if (texc_latest.name[0]) {
        texc_put_name(&text, texc_latest.name);
        texc_put(&text, ": ");
    }
    texc_put_sentence(&text, &texc_latest);
    return words;
}
