/* Answers a list of requests through texcache.h, as the program texcache does: lines FOLDER THREADS [MODE] < LIST.
 *
 * Of the requests those for lookups, regions and sizes, and `sync`; request i of a round is dealt to thread
 * i mod THREADS. A request of another kind is the line `-`. The closing lines of the
 * threads are those of the program. MODE is local where each lookup is first tried with texcache_texture_local_fixed.
 */
#define _XOPEN_SOURCE 700
#include "texcache.h"
#include <pthread.h>
#include <stdio.h>
#include <stdlib.h>
#include <string.h>
#include <sys/types.h>

typedef struct request {
    char *line, *answer;
    unsigned thread, round;
} request;

static request *requests;
static size_t request_count;
static unsigned threads, rounds, tries_local;
static texcache *cache;
static pthread_barrier_t round_ends;
static texcache_statistics *counts;

static unsigned number_of(const char *word, const char *const *words)
{
    unsigned n = 0;
    while (words[n] && strcmp(word, words[n])) n++;
    return n;
}

static char *refusal(int status, const texcache_answer *a)
{
    char text[160];
    switch (status) {
    case TEXCACHE_BAD_FILE:
        if (a->detail == 5 || a->detail == 6) snprintf(text, sizeof text, "bad file %u %u %u", a->generation, a->detail, a->part);
        else if (a->detail == 7 || a->detail == 12)
            snprintf(text, sizeof text, "bad file %u %u %u %llu", a->generation, a->detail, a->part, (unsigned long long)a->value);
        else snprintf(text, sizeof text, "bad file %u %u", a->generation, a->detail);
        break;
    case TEXCACHE_TILE_TOO_LARGE: snprintf(text, sizeof text, "tile too large %u", a->generation); break;
    case TEXCACHE_NO_LEVEL: snprintf(text, sizeof text, "no level %u %u", a->generation, a->detail); break;
    case TEXCACHE_OUTSIDE: snprintf(text, sizeof text, "outside %u", a->generation); break;
    case TEXCACHE_AGAIN: snprintf(text, sizeof text, "again %u %u", a->generation, a->newer); break;
    case TEXCACHE_NO_TILE:
    case TEXCACHE_NO_NAME: snprintf(text, sizeof text, "no such file"); break;
    default: snprintf(text, sizeof text, "%s", texcache_error_string(status));
    }
    return strdup(text);
}

static char *values_line(const char *word, const texcache_answer *a, int is_region, const uint16_t *values, size_t count)
{
    char *line = malloc(64 + 6 * count);
    int at = is_region ? sprintf(line, "%s %u %u", word, a->generation, a->channels) : sprintf(line, "%s %u", word, a->generation);
    for (size_t i = 0; i < count; i++) at += sprintf(line + at, " %u", values[i]);
    return line;
}

static char *answered(texcache_pass *pass, const char *line)
{
    static const char *const wraps[] = {"black", "clamp", "periodic", "mirror", NULL};
    static const char *const filters[] = {"closest", "bilinear", "trilinear", NULL};
    char swrap[16], twrap[16], filter[16];
    texcache_lookup r;
    texcache_region region;
    texcache_answer a;
    uint32_t file;
    uint16_t values[8];
    int name = 0, status;
    memset(&r, 0, sizeof r);
    if (!strcmp(line, "sync")) return strdup("sync");
    if (sscanf(line, "tex %d %d %u %15s %15s %15s %u %n", &r.s, &r.t, &r.lod, swrap, twrap, filter, &r.channels, &name) == 7 && name) {
        r.filter = number_of(filter, filters);
    } else if (sscanf(line, "texd %d %d %d %d %d %d %15s %15s %u %n", &r.s, &r.t, &r.dsdx, &r.dtdx, &r.dsdy, &r.dtdy, swrap, twrap,
                      &r.channels, &name) == 9 && name) {
    } else if (sscanf(line, "pixels %u %d %d %u %u %n", &region.level, &region.x, &region.y, &region.w, &region.h, &name) == 5 && name) {
        if ((status = texcache_find(cache, line + name, &file))) return refusal(status, &a);
        uint64_t texels = (uint64_t)region.w * region.h;
        size_t room = texels > 1048576 ? 8 : 8 * texels + 1;
        uint16_t *out = malloc(room * sizeof *out);
        status = texcache_get_pixels(pass, file, &region, out, room, &a);
        char *said = status ? refusal(status, &a) : values_line("pixels", &a, 1, out, a.value);
        free(out);
        return said;
    } else if (!strncmp(line, "info ", 5)) {
        texcache_info info;
        char text[100];
        status = texcache_find(cache, line + 5, &file);
        if (!status) status = texcache_get_info(pass, file, &info, &a);
        if (status) return refusal(status, &a);
        snprintf(text, sizeof text, "info %u %u %u %u %u %u %u", a.generation, info.width, info.height, info.channels, info.depth,
                 info.stored, info.levels);
        return strdup(text);
    } else {
        return strdup("-");
    }
    r.swrap = number_of(swrap, wraps);
    r.twrap = number_of(twrap, wraps);
    int is_along = line[3] == 'd';
    if ((status = texcache_find(cache, line + name, &file))) return refusal(status, &a);
    if (is_along) status = texcache_texture_d_fixed(pass, file, &r, values, 8, &a);
    else if (!tries_local || (status = texcache_texture_local_fixed(pass, file, &r, values, 8, &a)) == TEXCACHE_NOT_LOCAL)
        status = texcache_texture_fixed(pass, file, &r, values, 8, &a);
    return status ? refusal(status, &a) : values_line(is_along ? "texd" : "tex", &a, 0, values, r.channels);
}

static void *work(void *given)
{
    unsigned thread = (unsigned)(uintptr_t)given, round;
    texcache_pass *pass;
    size_t at = 0;
    int status = texcache_new_pass(cache, &pass);
    if (status) {
        fprintf(stderr, "lines: %s\n", texcache_error_string(status));
        exit(2);
    }
    for (round = 0; round < rounds; round++) {
        for (; at < request_count && requests[at].round == round; at++)
            if (requests[at].thread == thread) requests[at].answer = answered(pass, requests[at].line);
        pthread_barrier_wait(&round_ends);
    }
    texcache_stats(pass, &counts[thread]);
    texcache_end(&pass);
    return NULL;
}

int main(int count, char **words)
{
    char *line = NULL;
    size_t room = 0, in_round = 0;
    ssize_t size;
    int status = count < 3 ? TEXCACHE_BAD_ARGUMENT : texcache_open(&cache, words[1], NULL);
    if (status) {
        fprintf(stderr, "lines: %s\n", texcache_error_string(status));
        return 2;
    }
    threads = (unsigned)atoi(words[2]);
    tries_local = count > 3;
    while ((size = getline(&line, &room, stdin)) >= 0) {
        while (size && (line[size - 1] == '\n' || line[size - 1] == '\r')) line[--size] = 0;
        if (!size || *line == '#') continue;
        requests = realloc(requests, (request_count + 1) * sizeof *requests);
        requests[request_count++] = (request){strdup(line), NULL, (unsigned)(in_round++ % threads), rounds};
        if (!strcmp(line, "sync")) {
            rounds++;
            in_round = 0;
        }
    }
    free(line);
    rounds++;
    counts = calloc(threads, sizeof *counts);
    pthread_t *ids = malloc(threads * sizeof *ids);
    pthread_barrier_init(&round_ends, NULL, threads);
    for (unsigned i = 0; i < threads; i++) pthread_create(&ids[i], NULL, work, (void *)(uintptr_t)i);
    for (unsigned i = 0; i < threads; i++) pthread_join(ids[i], NULL);
    pthread_barrier_destroy(&round_ends);
    for (size_t i = 0; i < request_count; i++) {
        puts(requests[i].answer);
        free(requests[i].line);
        free(requests[i].answer);
    }
    for (unsigned i = 0; i < threads; i++)
        printf("worker %u needs %llu hits %llu\n", i, (unsigned long long)counts[i].pass.needs, (unsigned long long)counts[i].pass.hits);
    free(requests);
    free(counts);
    free(ids);
    return texcache_close(&cache);
}
