/* texcache_calls.c: the calls of texcache.h on files, regions, tiles and counts. Each is a call of the proved library,
 * which is repeated until nothing is lacking. */
#define _POSIX_C_SOURCE 200809L
#include "texcache_inside.h"

/* Ends a call on a place or shard, which has no answer, and keeps why it failed. */
static int texc_finish_at(texcache_pass *pass, uint32_t code, double place)
{
    static const texcache_supply_answer none;
    if (code) texc_keep_answer(pass, TEXC_NO_FILE, code, &none)->number = place;
    texc_leave(pass);
    return (int)code;
}

/* ---- files */

int texcache_get_info(texcache_pass *pass, uint32_t file, texcache_info *info, texcache_answer *answer)
{
    texcache_supply_answer said;
    texc_tries tries = {0, 0};
    uint32_t code;
    int refused = texc_begin(pass, info ? NULL : "info is NULL", answer);
    if (refused) return refused;
    do {
        code = tex_c_info(pass->held, &pass->held, file, info, &said);
    } while (code && texc_goes_on(pass, code, &said, &tries));
    return texc_finish(pass, file, code, &said, answer);
}

/* ---- regions */

int texcache_get_pixels(texcache_pass *pass, uint32_t file, const texcache_region *region, uint16_t *out, size_t room,
                        texcache_answer *answer)
{
    texcache_supply_answer said;
    texc_tries tries = {0, 0};
    uint16_t none = 0;
    uint32_t code;
    int refused = texc_begin(pass, region ? NULL : "region is NULL", answer);
    if (refused) return refused;
    if (!out) {
        out = &none;
        room = 0;
    }
    do {
        code = tex_c_pixels(pass->held, &pass->held, file, region, out, room, &said);
    } while (code && texc_goes_on(pass, code, &said, &tries));
    int status = texc_finish(pass, file, code, &said, answer);
    if (code == TEXCACHE_SMALL_BUFFER) texc_keep_room(room);
    return status;
}

/* ---- held tiles. The calls on them read nothing, so they are repeated only if a shard is busy. */

int texcache_get_tile(texcache_pass *pass, uint32_t file, uint32_t level, uint32_t x, uint32_t y, texcache_answer *answer)
{
    texcache_texel at = {level, x, y};
    texcache_supply_answer said;
    texc_tries tries = {0, 0};
    uint32_t code;
    int refused = texc_begin(pass, NULL, answer);
    if (refused) return refused;
    do {
        code = tex_c_get_tile(pass->held, &pass->held, file, &at, &said);
    } while (code && texc_goes_on(pass, code, &said, &tries));
    return texc_finish(pass, file, code, &said, answer);
}

static uint32_t texc_tile_at(texcache_pass *pass, size_t place, texcache_tile *tile)
{
    unsigned tries = 0;
    uint32_t code;
    do {
        code = tex_c_tile(pass->held, &pass->held, place, tile);
    } while (code == TEXCACHE_BUSY && texc_waits(&tries));
    return code;
}

int texcache_tile_at(texcache_pass *pass, size_t place, texcache_tile *tile)
{
    int refused = texc_begin(pass, tile ? NULL : "tile is NULL", NULL);
    if (refused) return refused;
    return texc_finish_at(pass, texc_tile_at(pass, place, tile), (double)place);
}

int texcache_tile_texels(texcache_pass *pass, size_t place, uint16_t *out, size_t room)
{
    texcache_tile tile;
    int refused = texc_begin(pass, NULL, NULL);
    if (refused) return refused;
    uint32_t code = texc_tile_at(pass, place, &tile);
    size_t row = code ? 0 : (size_t)tile.w * tile.channels;
    bool is_small = !code && (!out || room / (row ? row : 1) < tile.h);
    if (is_small) code = TEXCACHE_SMALL_BUFFER;
    for (uint32_t y = 0; !code && y < tile.h; y++)
        code = tex_c_tile_row(pass->held, &pass->held, place, y, out + y * row, row);
    int status = texc_finish_at(pass, code, (double)place);
    if (is_small) texc_keep_sizes(out ? room : 0, (uint64_t)row * tile.h);
    return status;
}

int texcache_release_tile(texcache_pass *pass, size_t place)
{
    unsigned tries = 0;
    uint32_t code;
    int refused = texc_begin(pass, NULL, NULL);
    if (refused) return refused;
    do {
        code = tex_c_release_tile(pass->held, &pass->held, place);
    } while (code == TEXCACHE_BUSY && texc_waits(&tries));
    return texc_finish_at(pass, code, (double)place);
}

/* ---- replaced files */

static uint32_t texc_invalidate(texcache_pass *pass, uint32_t file, bool force, texcache_supply_answer *said)
{
    texc_tries tries = {0, 0};
    uint32_t code;
    texc_look_anew(pass->cache, file, force);
    do {
        code = tex_c_invalidate(pass->held, &pass->held, file, force, said);
    } while (code && texc_goes_on(pass, code, said, &tries));
    return code;
}

/* Files that were checked one after the other: the first failure, and how many there were. */
typedef struct texc_checked {
    uint32_t status;
    texcache_supply_answer first;
} texc_checked;

static void texc_check(texcache_pass *pass, uint32_t file, bool force, texc_checked *all)
{
    texcache_supply_answer said;
    uint32_t code = texc_status(pass, file, texc_invalidate(pass, file, force, &said));
    if (!code) return;
    if (all->status) {
        texc_count_error(pass, file, code);
    } else {
        texc_keep_answer(pass, file, code, &said);
        all->status = code;
        all->first = said;
        all->first.part = file;
        all->first.value = 0;
    }
    all->first.value++;
}

/* Ends a call that checked several files. */
static int texc_end_checks(texcache_pass *pass, const texc_checked *all, texcache_answer *answer)
{
    texc_leave(pass);
    if (answer) texc_fill_answer(&all->first, answer);
    return (int)all->status;
}

int texcache_invalidate(texcache_pass *pass, uint32_t number, bool force, texcache_answer *answer)
{
    texcache_supply_answer said;
    texc_checked all = {TEXCACHE_OK, {0}};
    uint32_t file, code = TEXCACHE_OK;
    int refused = texc_begin(pass, NULL, answer);
    if (refused) return refused;
    const bool is_set = texc_set_name(pass->cache, number) != NULL;
    for (uint32_t tile = 0; is_set && texc_known_tile(pass->cache, number, tile, &file); tile++)
        if (file != TEXC_NO_FILE) texc_check(pass, file, force, &all);
    if (!is_set) code = texc_invalidate(pass, number, force, &said);
    if (force) __atomic_fetch_add(&pass->cache->forced, 1, __ATOMIC_RELAXED);
    return is_set ? texc_end_checks(pass, &all, answer) : texc_finish(pass, number, code, &said, answer);
}

int texcache_invalidate_all(texcache_pass *pass, texcache_answer *answer)
{
    texc_checked all = {TEXCACHE_OK, {0}};
    int refused = texc_begin(pass, NULL, answer);
    if (refused) return refused;
    for (uint32_t file = 0, count = texc_count(pass->cache); file < count; file++)
        if (texc_is_known(pass->cache, file)) texc_check(pass, file, false, &all);
    return texc_end_checks(pass, &all, answer);
}

/* ---- counts */

int texcache_stats(texcache_pass *pass, texcache_statistics *out)
{
    int refused = texc_begin(pass, out ? NULL : "out is NULL", NULL);
    if (refused) return refused;
    tex_c_counts(pass->held, &pass->held, &out->pass);
    out->pass.needs -= pass->before.needs;
    out->pass.hits -= pass->before.hits;
    out->pass.apart -= pass->before.apart;
    out->looks = __atomic_load_n(&pass->cache->looks, __ATOMIC_RELAXED);
    out->opens = __atomic_load_n(&pass->cache->opens, __ATOMIC_RELAXED);
    out->reads = __atomic_load_n(&pass->cache->reads, __ATOMIC_RELAXED);
    out->bytes = __atomic_load_n(&pass->cache->bytes, __ATOMIC_RELAXED);
    texc_leave(pass);
    return TEXCACHE_OK;
}

int texcache_shard_stats(texcache_pass *pass, uint32_t shard, texcache_shard *out)
{
    unsigned tries = 0;
    uint32_t code;
    int refused = texc_begin(pass, out ? NULL : "out is NULL", NULL);
    if (refused) return refused;
    do {
        code = tex_c_shard(pass->held, &pass->held, shard, out);
    } while (code == TEXCACHE_BUSY && texc_waits(&tries));
    return texc_finish_at(pass, code, shard);
}
