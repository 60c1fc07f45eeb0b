/* texcache_supply.h: the calls of the proved library, for programs that read files in their own way.
 *
 * The library does no input or output. A call that lacks bytes answers TEXCACHE_NEEDED and says which; supply them and
 * make the same call again. docs/SUPPLY.md says how. These calls are in libtexcache.a alone. src/c/texcache_posix.c is
 * the loop over them that texcache.h has.
 *
 * A handle goes in by value, and the call gives it back through `to`. It serves one call at a time.
 */
#ifndef TEXCACHE_SUPPLY_H
#define TEXCACHE_SUPPLY_H

#include "texcache.h"

#ifdef __cplusplus
extern "C" {
#endif

/* The options of a cache: texcache_options without its size. */
typedef struct texcache_supply_options {
    uint64_t budget;
    uint32_t shards, passes, handles, autotile, slots, tiles_per_shard;
    bool automip;
} texcache_supply_options;

/* What belongs to a result or an error, as in texcache_answer; and what a call needs. */
typedef struct texcache_supply_answer {
    uint32_t generation, newer, detail, part;
    uint64_t value;
    uint32_t channels;
    uint32_t need;         /* 0 nothing, 1 a freshness check of a file, 2 bytes of it, 3 rows of it */
    uint32_t need_file;
    uint32_t need_generation;
    uint64_t need_at, need_least, need_most;
    uint64_t need_stride, need_row;  /* rows: the distance from one to the next, and the bytes of one */
} texcache_supply_answer;

/* A texel of a level. */
typedef struct texcache_texel {
    uint32_t level, x, y;
} texcache_texel;

/* A handle of the library. NULL is no handle. */
typedef struct texcache_held {
    void *at;
} texcache_held;

/* A buffer that the library lends. Give it back with a supply, or by tex_c_give_back. */
typedef struct texcache_room {
    void *at;
} texcache_room;

/* What a look at a file shows, as far as it changes if the file is replaced or written to. `modified` and `changed` are
 * st_mtim and st_ctim in nanoseconds. A file system of your own that lacks one of the numbers says 0. */
typedef struct texcache_stamp {
    uint64_t device, inode, size, modified, changed;
} texcache_stamp;

/* The newest version of a file that was seen: its generation, 0 before the first look, and its stamp. */
typedef struct texcache_version_seen {
    uint32_t generation;
    texcache_stamp stamp;
} texcache_version_seen;

/* A freshness check of a file: its generation and length. */
typedef struct texcache_seen {
    uint32_t file, generation;
    uint64_t len;
} texcache_seen;

/* Rows of a file: the first at `at`, each `row` bytes long, `stride` bytes apart. */
typedef struct texcache_rows {
    uint32_t file, generation;
    uint64_t at, stride, row;
} texcache_rows;

/* What many lookups of the library have in common. LOD is in 1/65536 of a level. */
typedef struct texcache_batch {
    uint32_t file;
    uint32_t max_probes;  /* 1 to 32; 0 for lookups without derivatives */
    uint32_t lod, filter; /* without derivatives */
    uint32_t swrap, twrap, channels;
} texcache_batch;

/* Where a lookup of the library is, in 1/2^32 of the image. Without derivatives s and t alone are read. */
typedef struct texcache_place {
    int64_t s, t, dsdx, dtdx, dsdy, dtdy;
} texcache_place;

/* What the library says of many lookups: how many are answered before an error, or which is the first out of range;
 * the generation that they are of; and what belongs to the error. */
typedef struct texcache_batch_answer {
    uint64_t done;
    uint32_t generation;
    texcache_supply_answer error;
} texcache_batch_answer;

uint32_t tex_c_new(texcache_held *to, const texcache_supply_options *options, uint32_t files,
                   texcache_supply_answer *answer);
uint32_t tex_c_split(texcache_held from, texcache_held *to, texcache_held *second);
void tex_c_free(texcache_held from, texcache_held none, texcache_held *to);
uint32_t tex_c_info(texcache_held from, texcache_held *to, uint32_t file, texcache_info *info,
                    texcache_supply_answer *answer);
uint32_t tex_c_texture(texcache_held from, texcache_held *to, uint32_t file, const texcache_lookup *lookup,
                       uint16_t *out, size_t room, texcache_supply_answer *answer);
uint32_t tex_c_texture_d(texcache_held from, texcache_held *to, uint32_t file, const texcache_lookup *lookup,
                         uint16_t *out, size_t room, texcache_supply_answer *answer);
uint32_t tex_c_texture_local(texcache_held from, texcache_held *to, uint32_t file, const texcache_lookup *lookup,
                             uint16_t *out, size_t room, texcache_supply_answer *answer);
uint32_t tex_c_texture_many(texcache_held from, texcache_held *to, const texcache_batch *batch,
                            const texcache_place *places, size_t count, uint16_t *out, size_t room,
                            texcache_batch_answer *answer);
uint32_t tex_c_pixels(texcache_held from, texcache_held *to, uint32_t file, const texcache_region *region,
                      uint16_t *out, size_t room, texcache_supply_answer *answer);
uint32_t tex_c_get_tile(texcache_held from, texcache_held *to, uint32_t file, const texcache_texel *at,
                        texcache_supply_answer *answer);
uint32_t tex_c_tile(texcache_held from, texcache_held *to, size_t place, texcache_tile *out);
uint32_t tex_c_tile_row(texcache_held from, texcache_held *to, size_t place, uint32_t row, uint16_t *out, size_t room);
uint32_t tex_c_release_tile(texcache_held from, texcache_held *to, size_t place);
uint32_t tex_c_invalidate(texcache_held from, texcache_held *to, uint32_t file, bool force,
                          texcache_supply_answer *answer);
uint32_t tex_c_invalidate_all(texcache_held from, texcache_held *to, texcache_supply_answer *answer);

/* Drops what the cache keeps of a file beside its tiles: its directories, and bytes that were read ahead. The next call on
 * the file reads its directories again. TEXCACHE_OK, TEXCACHE_NO_FILE or TEXCACHE_BUSY. */
uint32_t tex_c_drop_record(texcache_held from, texcache_held *to, uint32_t file);

void tex_c_counts(texcache_held from, texcache_held *to, texcache_counts *out);
uint32_t tex_c_shard(texcache_held from, texcache_held *to, uint32_t shard, texcache_shard *out);
uint32_t tex_c_supply_look(texcache_held from, texcache_held *to, uint32_t file, uint32_t generation, uint64_t len);
uint32_t tex_c_supply_looks(texcache_held from, texcache_held *to, const texcache_seen *looks, size_t count);
uint32_t tex_c_room(texcache_held from, texcache_held *to, size_t size, texcache_room *room, uint8_t **bytes);
void tex_c_give_back(texcache_held from, texcache_held *to, texcache_room room);
uint32_t tex_c_supply_bytes(texcache_held from, texcache_held *to, uint32_t file, uint32_t generation, uint64_t at,
                            texcache_room room);
uint32_t tex_c_supply_rows(texcache_held from, texcache_held *to, const texcache_rows *rows, texcache_room room);
uint32_t tex_c_supply_fault(texcache_held from, texcache_held *to);

/* Which version of a file was found, opened or read. These calls take no handle; one at a time uses a `known`. */

/* Notes what a look at a file found: 0 the known version, 1 a newer one, which `known` then is, or 2 another one for which
 * no generation is left. */
uint32_t tex_c_found(texcache_version_seen *known, const texcache_stamp *seen);

/* The generation of an open file whose descriptor has this stamp, or 0 if it is not the known version. */
uint32_t tex_c_opened(const texcache_version_seen *known, const texcache_stamp *seen);

/* Whether bytes may be supplied as those of generation `needed`: they were read from a file that tex_c_opened said to be of
 * generation `opened`, and the look after the reading found the version `known`. */
bool tex_c_may_answer(const texcache_version_seen *known, uint32_t opened, uint32_t needed);

#ifdef __cplusplus
}
#endif
#endif
