/* texcache_statistics.c: what a cache has done, as a text for people and as JSON. The numbers are collected when they are
 * asked for: those of passes from the proved library, those of files from texcache_posix.c. */
#define _POSIX_C_SOURCE 200809L
#include "texcache_inside.h"

#include <inttypes.h>
#include <stdlib.h>
#include <sys/resource.h>
#include <unistd.h>

/* How often a pass or shard that is busy is tried, in some five milliseconds. Then its older counts are taken, or none. */
#define TEXC_COUNTS 48
/* The most entries of a directory that are read. */
#define TEXC_ENTRIES 1000

/* How a file's first directory stores its image, as far as that is known. */
enum texc_form { TEXC_UNKNOWN, TEXC_STRIPS, TEXC_TILES };

/* What is known of a used file. `code` is that of its facts: 0, an error, or TEXCACHE_NEEDED if they are not in memory. */
typedef struct texc_line {
    uint32_t file, generation, code;
    enum texc_form form;
    uint64_t errors;
    texc_tally tally;
    texcache_info info;
    texcache_answer answer;
} texc_line;

/* All that is reported. */
typedef struct texc_report {
    texcache *cache;
    texc_line *lines;
    uint32_t used;
    uint64_t passes, busy, lookups, tiles, loose, errors;
    texcache_counts counts;
    texc_tally tally;
} texc_report;

/* A number of the report: its label in the text, its key in JSON. */
typedef struct texc_number {
    const char *label, *key;
    uint64_t value;
    bool is_time;  /* in nanoseconds, shown in seconds */
} texc_number;

/* ---- the form of a file, for a remark. The library does not say it, so the file is read as it is now. */

/* A number of a TIFF, of 2 to 8 bytes. */
static uint64_t texc_number_in(const uint8_t *at, size_t size, bool is_big)
{
    uint64_t number = 0;
    for (size_t i = 0; i < size; i++) number = number << 8 | at[is_big ? i : size - 1 - i];
    return number;
}

/* Whether the first directory of an open file has TileWidth, or else StripOffsets. */
static enum texc_form texc_form_in(int fd)
{
    uint8_t head[16], entry[8];
    if (pread(fd, head, sizeof head, 0) != sizeof head) return TEXC_UNKNOWN;
    const bool is_big = head[0] == 'M', is_wide = texc_number_in(head + 2, 2, is_big) == 43;
    const size_t before = is_wide ? 8 : 2, size = is_wide ? 20 : 12;
    uint64_t at = is_wide ? texc_number_in(head + 8, 8, is_big) : texc_number_in(head + 4, 4, is_big);
    enum texc_form form = TEXC_UNKNOWN;
    if (at > INT64_MAX / 2 || pread(fd, entry, before, (off_t)at) != (ssize_t)before) return TEXC_UNKNOWN;
    uint64_t count = texc_number_in(entry, before, is_big);
    for (uint64_t i = 0; i < count && i < TEXC_ENTRIES; i++) {
        if (pread(fd, entry, 2, (off_t)(at + before + i * size)) != 2) return TEXC_UNKNOWN;
        uint64_t tag = texc_number_in(entry, 2, is_big);
        if (tag == 322) return TEXC_TILES;
        if (tag == 273) form = TEXC_STRIPS;
    }
    return form;
}

static enum texc_form texc_form_of(texcache *cache, uint32_t file)
{
    int fd = texc_open_at(cache, &cache->files[file].place);
    if (fd < 0) return TEXC_UNKNOWN;
    enum texc_form form = texc_form_in(fd);
    close(fd);
    return form;
}

/* ---- collecting. The cache's lock is held. */

/* Reads what a pass's handle has counted. Returns whether it could, because no call ran in the pass. */
static bool texc_count_pass(texcache_pass *pass)
{
    unsigned tries = 0;
    int state;
    do {
        state = TEXC_FREE;
        if (__atomic_compare_exchange_n(&pass->state, &state, TEXC_COUNTED, 0, __ATOMIC_ACQUIRE, __ATOMIC_RELAXED)) break;
    } while (state == TEXC_USED && texc_pauses(&tries, TEXC_COUNTS));
    if (state == TEXC_USED) return false;
    tex_c_counts(pass->held, &pass->held, &pass->counted);
    if (state == TEXC_FREE) texc_leave(pass);
    return true;
}

static void texc_count_passes(texcache *cache, texc_report *report)
{
    report->lookups = cache->lookups;
    for (texcache_pass *pass = cache->made; pass; pass = pass->made_before) {
        report->lookups += __atomic_load_n(&pass->lookups, __ATOMIC_RELAXED);
        if (!pass->held.at) continue;
        report->busy += !texc_count_pass(pass);
        report->passes += __atomic_load_n(&pass->state, __ATOMIC_RELAXED) != TEXC_ENDED;
        report->counts.needs += pass->counted.needs;
        report->counts.hits += pass->counted.hits;
        report->counts.apart += pass->counted.apart;
        report->counts.holds += pass->counted.holds;
    }
}

static void texc_count_shards(texcache *cache, texc_report *report)
{
    for (uint32_t number = 0; number < cache->options.shards; number++) {
        texcache_shard shard;
        unsigned tries = 0;
        uint32_t code;
        do {
            code = tex_c_shard(cache->first, &cache->first, number, &shard);
        } while (code == TEXCACHE_BUSY && texc_pauses(&tries, TEXC_COUNTS));
        if (code) continue;
        report->tiles += shard.tiles;
        report->loose += shard.loose;
    }
}

static void texc_add_tally(texc_tally *to, const texc_tally *more)
{
    to->looks += more->looks;
    to->opens += more->opens;
    to->reads += more->reads;
    to->bytes += more->bytes;
    to->rows += more->rows;
    to->again += more->again;
    to->input_time += more->input_time;
    to->lock_time += more->lock_time;
}

/* Reads what was counted of a file, and its facts if they are in memory. Returns whether the file was used. */
static bool texc_count_file(texcache *cache, uint32_t number, texc_line *line)
{
    texc_file *file = &cache->files[number];
    texcache_supply_answer said;
    memset(line, 0, sizeof *line);
    memset(&said, 0, sizeof said);
    pthread_mutex_lock(&file->lock);
    line->tally = file->tally;
    line->generation = file->known.generation;
    pthread_mutex_unlock(&file->lock);
    line->file = number;
    line->errors = __atomic_load_n(&file->errors, __ATOMIC_RELAXED);
    line->code = TEXCACHE_NEEDED;
    if (line->generation) line->code = tex_c_info(cache->first, &cache->first, number, &line->info, &said);
    texc_fill_answer(&said, &line->answer);
    return line->tally.looks > 0;
}

/* Those with the most bytes first. */
static int texc_by_bytes(const void *a, const void *b)
{
    const texc_line *one = a, *other = b;
    if (one->tally.bytes != other->tally.bytes) return one->tally.bytes < other->tally.bytes ? 1 : -1;
    return one->file < other->file ? -1 : one->file > other->file;
}

static int texc_collect(texcache *cache, uint32_t level, texc_report *report)
{
    report->cache = cache;
    const uint32_t count = texc_count(cache);
    report->lines = malloc(((size_t)count + 1) * sizeof *report->lines);
    if (!report->lines) return TEXCACHE_NO_MEMORY;
    pthread_mutex_lock(&cache->lock);
    texc_count_passes(cache, report);
    texc_count_shards(cache, report);
    for (uint32_t number = 0; number < count; number++) {
        texc_line *line = &report->lines[report->used];
        if (!texc_count_file(cache, number, line)) continue;
        texc_add_tally(&report->tally, &line->tally);
        report->errors += line->errors;
        report->used++;
    }
    pthread_mutex_unlock(&cache->lock);
    for (uint32_t i = 0; level >= 2 && i < report->used; i++)
        if (!report->lines[i].code) report->lines[i].form = texc_form_of(cache, report->lines[i].file);
    qsort(report->lines, report->used, sizeof *report->lines, texc_by_bytes);
    return TEXCACHE_OK;
}

/* ---- numbers */

/* The most memory that the process has had, in bytes. */
static uint64_t texc_peak(void)
{
    struct rusage usage;
    return getrusage(RUSAGE_SELF, &usage) ? 0 : (uint64_t)usage.ru_maxrss * 1024;
}

enum { TEXC_NUMBERS = 22 };

/* The totals, in the order in which they are shown. */
static void texc_list_numbers(const texc_report *r, texc_number to[TEXC_NUMBERS])
{
    const texc_tally *t = &r->tally;
    const texc_number numbers[TEXC_NUMBERS] = {
        {"lookups", "lookups", r->lookups, false},
        {"cells that they needed", "needs", r->counts.needs, false},
        {"of these in the two latest tiles of a pass", "hits", r->counts.hits, false},
        {"of these answered uncached", "uncached", r->counts.apart, false},
        {"passes now", "passes", r->passes, false},
        {"of these busy, with counts of before", "busy_passes", r->busy, false},
        {"tiles held by passes", "held_tiles", r->counts.holds, false},
        {"tiles in memory now", "tiles", r->tiles, false},
        {"bytes of those that are not pinned", "tile_bytes", r->loose, false},
        {"bytes that these may take (budget)", "budget", r->cache->options.budget, false},
        {"peak memory of the process, bytes", "peak_process_bytes", texc_peak(), false},
        {"files", "file_count", texc_count(r->cache), false},
        {"of these used", "used_files", r->used, false},
        {"freshness checks", "looks", t->looks, false},
        {"opens", "opens", t->opens, false},
        {"reads", "reads", t->reads, false},
        {"of these of a part of a row", "row_reads", t->rows, false},
        {"bytes read", "bytes", t->bytes, false},
        {"of these read before (estimated)", "bytes_again", t->again, false},
        {"seconds in checks, opens and reads", "input_seconds", t->input_time, true},
        {"seconds waiting for other threads", "wait_seconds",
         t->lock_time + __atomic_load_n(&r->cache->wait_time, __ATOMIC_RELAXED), true},
        {"calls that failed because of a file", "errors", r->errors, false},
    };
    memcpy(to, numbers, sizeof numbers);
}

static void texc_put_value(texc_text *text, uint64_t value, bool is_time)
{
    if (is_time) texc_put(text, "%" PRIu64 ".%06" PRIu64, value / 1000000000, value / 1000 % 1000000);
    else texc_put(text, "%" PRIu64, value);
}

/* Adds why a file would be better as a texture; nothing if it would not. */
static void texc_put_remark(texc_text *text, const texc_line *line, const char *name)
{
    bool is_small = line->info.width <= 1 && line->info.height <= 1;
    bool has_one = line->info.stored == 1 && !is_small, has_strips = line->form == TEXC_STRIPS && !is_small;
    if (line->code || (!has_one && !has_strips)) return;
    texc_put(text, "%s%s%s: texmake FOLDER ", has_strips ? "stripped" : "", has_strips && has_one ? ", " : "",
             has_one ? "one level" : "");
    texc_put_quoted(text, name);
}

/* Adds the error of a file that is not accepted. */
static void texc_put_refusal(texc_text *text, const texc_line *line, const char *name)
{
    if (texc_is_of_file(line->code)) texc_put_error(text, line->code, &line->answer, name);
}

/* ---- text */

static const char *const texc_forms[] = {"-", "strips", "tiles"};

static void texc_put_text_line(texc_text *text, const texc_line *line, const char *name)
{
    const texc_tally *t = &line->tally;
    const texcache_info *info = &line->info;
    texc_put(text, "%7" PRIu64 " %9" PRIu64 " %13" PRIu64 " %13" PRIu64 " %8" PRIu32 " %7" PRIu64, t->opens, t->reads,
             t->bytes, t->again, line->generation, line->errors);
    if (line->code) texc_put(text, "%29s  ", "-");
    else texc_put(text, " %6" PRIu32 "x%-6" PRIu32 " %3" PRIu32 "/%-3" PRIu32 " %-6s  ", info->width, info->height,
                  info->stored, info->levels, texc_forms[line->form]);
    texc_put_name(text, name);
    texc_put(text, "  ");
    texc_put_remark(text, line, name);
    texc_put_refusal(text, line, name);
    texc_put(text, "\n");
}

static void texc_put_text(texc_text *text, const texc_report *report, uint32_t level)
{
    texc_number numbers[TEXC_NUMBERS];
    texc_list_numbers(report, numbers);
    texc_put(text, "texcache %s statistics\n", texcache_version());
    for (int i = 0; i < TEXC_NUMBERS; i++) {
        texc_put(text, "  %-44s", numbers[i].label);
        texc_put_value(text, numbers[i].value, numbers[i].is_time);
        texc_put(text, "\n");
    }
    if (level < 2) return;
    texc_put(text, "%7s %9s %13s %13s %8s %7s %13s %7s %-6s  file\n", "opens", "reads", "bytes", "read before", "versions",
             "errors", "size", "levels", "form");
    for (uint32_t i = 0; i < report->used; i++)
        texc_put_text_line(text, &report->lines[i], report->cache->files[report->lines[i].file].place.name);
}

/* ---- JSON */

/* The number of bytes of a UTF-8 character, or 0 if these bytes are not one. */
static size_t texc_character(const unsigned char *at)
{
    size_t size = *at < 0x80 ? 1 : *at < 0xc2 ? 0 : *at < 0xe0 ? 2 : *at < 0xf0 ? 3 : *at < 0xf5 ? 4 : 0;
    unsigned char least = *at == 0xe0 ? 0xa0 : *at == 0xf0 ? 0x90 : 0x80;
    unsigned char most = *at == 0xed ? 0x9f : *at == 0xf4 ? 0x8f : 0xbf;
    for (size_t i = 1; i < size; i++) {
        if (at[i] < (i == 1 ? least : 0x80) || at[i] > (i == 1 ? most : 0xbf)) return 0;
    }
    return size;
}

/* Adds a string. Bytes that are not UTF-8 become U+FFFD. */
static void texc_put_string(texc_text *text, const char *string)
{
    texc_put(text, "\"");
    while (*string) {
        size_t size = texc_character((const unsigned char *)string);
        if (*string == '"' || *string == '\\') texc_put(text, "\\%c", *string);
        else if (!size) texc_put(text, "\\ufffd");
        else if ((unsigned char)*string < 32) texc_put(text, "\\u%04x", *string);
        else texc_put(text, "%.*s", (int)size, string);
        string += size ? size : 1;
    }
    texc_put(text, "\"");
}

/* Adds a key with a text that is made first, null if that is empty. */
static void texc_put_made(texc_text *text, const char *key, const texc_line *line, const char *name,
                          void make(texc_text *, const texc_line *, const char *))
{
    char words[TEXC_ERROR] = "";
    texc_text made = {words, sizeof words, 0};
    make(&made, line, name);
    texc_put(text, ", \"%s\": ", key);
    if (*words) texc_put_string(text, words);
    else texc_put(text, "null");
}

static void texc_put_json_line(texc_text *text, const texc_line *line, const char *name)
{
    const texc_tally *t = &line->tally;
    const texcache_info *info = &line->info;
    const texc_number numbers[] = {
        {NULL, "generations", line->generation, false}, {NULL, "looks", t->looks, false}, {NULL, "opens", t->opens, false},
        {NULL, "reads", t->reads, false}, {NULL, "row_reads", t->rows, false}, {NULL, "bytes", t->bytes, false},
        {NULL, "bytes_again", t->again, false}, {NULL, "input_seconds", t->input_time, true},
        {NULL, "wait_seconds", t->lock_time, true}, {NULL, "errors", line->errors, false}};
    texc_put(text, "{\"file\": %" PRIu32 ", \"name\": ", line->file);
    texc_put_string(text, name);
    for (size_t i = 0; i < sizeof numbers / sizeof *numbers; i++) {
        texc_put(text, ", \"%s\": ", numbers[i].key);
        texc_put_value(text, numbers[i].value, numbers[i].is_time);
    }
    if (!line->code)
        texc_put(text, ", \"width\": %" PRIu32 ", \"height\": %" PRIu32 ", \"channels\": %" PRIu32 ", \"depth\": %" PRIu32
                 ", \"stored\": %" PRIu32 ", \"levels\": %" PRIu32, info->width, info->height, info->channels, info->depth,
                 info->stored, info->levels);
    texc_put(text, ", \"form\": \"%s\"", texc_forms[line->form]);
    texc_put_made(text, "remark", line, name, texc_put_remark);
    texc_put_made(text, "error", line, name, texc_put_refusal);
    texc_put(text, "}");
}

static void texc_put_json(texc_text *text, const texc_report *report, uint32_t level)
{
    texc_number numbers[TEXC_NUMBERS];
    texc_list_numbers(report, numbers);
    texc_put(text, "{\"version\": \"%s\"", texcache_version());
    for (int i = 0; i < TEXC_NUMBERS; i++) {
        texc_put(text, ", \"%s\": ", numbers[i].key);
        texc_put_value(text, numbers[i].value, numbers[i].is_time);
    }
    if (level >= 2) texc_put(text, ", \"files\": [");
    for (uint32_t i = 0; level >= 2 && i < report->used; i++) {
        if (i) texc_put(text, ", ");
        texc_put_json_line(text, &report->lines[i], report->cache->files[report->lines[i].file].place.name);
    }
    texc_put(text, "%s}\n", level >= 2 ? "]" : "");
}

/* ---- calls */

typedef void texc_puts(texc_text *text, const texc_report *report, uint32_t level);

static int texc_statistics(texc_puts *put, texcache *cache, uint32_t level, texc_text *text, size_t *needed)
{
    texc_report report;
    if (needed) *needed = 0;
    const char *wrong = !cache ? "cache is NULL" : !text->to && text->room ? "buffer is NULL, and room is not 0" : NULL;
    if (wrong) return texc_refuse(texc_keep(TEXCACHE_BAD_ARGUMENT, wrong), NULL);
    if (text->room) text->to[0] = 0;
    if (cache->forks != texc_forks) return texc_refuse(texc_keep(TEXCACHE_FORKED, NULL), NULL);
    memset(&report, 0, sizeof report);
    int refused = texc_collect(cache, level, &report);
    if (refused) return texc_refuse(texc_keep(refused, NULL), NULL);
    put(text, &report, level);
    free(report.lines);
    if (needed) *needed = text->size + 1;
    if (!text->room || text->size < text->room) return TEXCACHE_OK;
    texc_fact *fact = texc_keep(TEXCACHE_SMALL_BUFFER, "bytes");
    fact->given = text->room;
    fact->answer.value = text->size + 1;
    return texc_refuse(fact, NULL);
}

int texcache_statistics_text(texcache *cache, uint32_t level, char *buffer, size_t room, size_t *needed)
{
    texc_text text = {buffer, room, 0};
    return texc_statistics(texc_put_text, cache, level, &text, needed);
}

int texcache_statistics_json(texcache *cache, uint32_t level, char *buffer, size_t room, size_t *needed)
{
    texc_text text = {buffer, room, 0};
    return texc_statistics(texc_put_json, cache, level, &text, needed);
}
