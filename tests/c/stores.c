#include "stores.h"

#include <stdlib.h>

enum { RECORDS = 1016, RECORD_WORDS = 8, RESERVED = 1024 };

static uint32_t word(const uint32_t *store, uint32_t record, uint32_t field)
{
    return store[RECORDS + (size_t)RECORD_WORDS * record + field];
}

static bool fits(size_t words, size_t words_for_each, uint32_t limit, uint32_t most)
{
    return limit >= 1 && limit <= 1048576 && limit <= most && words >= RESERVED + words_for_each * limit;
}

/* ---- the table */

struct table_walk {
    const uint32_t *table;
    uint32_t nodes, met;
    struct model *read;
};

/* The nodes at and below one cell. `above` is the prefix that they go on from, `shortest` the least length they have. */
static bool walk_table(struct table_walk *walk, uint32_t cell, struct model_prefix above, uint32_t shortest)
{
    const uint32_t *table = walk->table;
    uint32_t node = word(table, cell / 2, 3 + cell % 2);
    if (node == 0)
        return true;
    if (node > walk->nodes)
        return false;
    uint32_t address = word(table, node, 0), length = word(table, node, 1), mark = word(table, node, 2);
    bool both = word(table, node, 3) != 0 && word(table, node, 4) != 0;
    if (length > 32 || length < shortest || word(table, node, 5) != cell || !model_contains(above, address))
        return false;
    if (mark == 0 && !both)
        return false;
    walk->met++;
    if (mark != 0) {
        if (walk->read->route_count == walk->read->route_limit)
            return false;
        walk->read->routes[walk->read->route_count++]
            = (struct model_item){ model_prefix_of(address, length), mark - 1 };
    }
    if (length == 32)
        return word(table, node, 3) == 0 && word(table, node, 4) == 0;
    struct model_prefix left = model_prefix_of(address & ~(UINT32_C(1) << (31 - length)), length + 1);
    struct model_prefix right = model_prefix_of(address | UINT32_C(1) << (31 - length), length + 1);
    return walk_table(walk, 2 * node, left, length + 1) && walk_table(walk, 2 * node + 1, right, length + 1);
}

bool read_table(const uint32_t *table, size_t words, struct model *read)
{
    uint32_t most = read->route_limit;
    read->route_count = 0;
    if (words < RESERVED || !fits(words, 16, table[0], most) || table[1] > 2 * table[0] || table[2] > table[0])
        return false;
    struct table_walk walk = { table, table[1], 0, read };
    read->route_limit = table[0];
    bool sound = walk_table(&walk, 0, model_prefix_of(0, 0), 0) && walk.met == table[1] && read->route_count == table[2];
    for (uint32_t i = 0; sound && i < read->route_count; i++)
        sound = read->routes[i].hop >= 1 && read->routes[i].hop <= 65535;
    read->route_limit = most;
    return sound;
}

/* ---- the cache */

struct cache_walk {
    const uint32_t *cache;
    uint32_t entries, met;
};

/* The nodes at and below one cell: node 2 i is the entry of slot i, node 2 i + 1 its branch. */
static bool walk_cache(struct cache_walk *walk, uint32_t cell, struct model_prefix above, uint32_t shortest)
{
    const uint32_t *cache = walk->cache;
    uint32_t node = word(cache, cell / 2, 5 + cell % 2), slot = node / 2;
    if (slot < 1 || slot > walk->entries)
        return false;
    uint32_t address = word(cache, slot, 0), entry_length = word(cache, slot, 1) % 64;
    if (entry_length > 32 || entry_length < shortest || !model_contains(above, address))
        return false;
    walk->met++;
    if (node % 2 == 0)
        return word(cache, slot, 4) == cell;
    uint32_t length = word(cache, slot, 7) % 64;
    if (slot == 1 || word(cache, slot, 7) / 64 != cell || length < shortest || length >= entry_length)
        return false;
    struct model_prefix left = model_prefix_of(address & ~(UINT32_C(1) << (31 - length)), length + 1);
    struct model_prefix right = model_prefix_of(address | UINT32_C(1) << (31 - length), length + 1);
    return walk_cache(walk, 2 * slot, left, length + 1) && walk_cache(walk, 2 * slot + 1, right, length + 1);
}

/* Follows the ring of use from slot 0 and takes the entries in their order. */
static bool read_ring(const uint32_t *cache, uint32_t entries, struct model *read)
{
    uint32_t slot = 0;
    for (uint32_t i = 0; i < entries; i++) {
        uint32_t next = word(cache, slot, 3);
        if (next == 0 || next > entries || word(cache, next, 2) != slot)
            return false;
        slot = next;
        uint32_t packed = word(cache, slot, 1);
        if (packed % 64 > 32)
            return false;
        read->entries[i] = (struct model_item){ model_prefix_of(word(cache, slot, 0), packed % 64), packed / 64 };
    }
    read->entry_count = entries;
    return word(cache, slot, 3) == 0 && word(cache, 0, 2) == slot;
}

bool read_cache(const uint32_t *cache, size_t words, struct model *read)
{
    read->entry_count = 0;
    if (words < RESERVED || !fits(words, 8, cache[0], read->entry_limit) || cache[1] > cache[0])
        return false;
    uint32_t entries = cache[1];
    struct cache_walk walk = { cache, entries, 0 };
    if (!read_ring(cache, entries, read))
        return false;
    if (entries == 0)
        return word(cache, 0, 5) == 0;
    return walk_cache(&walk, 0, model_prefix_of(0, 0), 0) && walk.met == 2 * entries - 1;
}

bool sound_pair(const uint32_t *table, size_t table_words, const uint32_t *cache, size_t cache_words,
                struct model *read)
{
    return read_table(table, table_words, read) && read_cache(cache, cache_words, read) && model_legal(read);
}

/* ---- comparing */

static int by_prefix(const void *left, const void *right)
{
    const struct model_item *one = left, *other = right;
    if (one->prefix.address != other->prefix.address)
        return one->prefix.address < other->prefix.address ? -1 : 1;
    return (one->prefix.length > other->prefix.length) - (one->prefix.length < other->prefix.length);
}

static bool same_items(const struct model_item *one, const struct model_item *other, uint32_t count)
{
    for (uint32_t i = 0; i < count; i++)
        if (by_prefix(&one[i], &other[i]) != 0 || one[i].hop != other[i].hop)
            return false;
    return true;
}

bool same_contents(struct model *one, struct model *other)
{
    if (one->route_count != other->route_count || one->entry_count != other->entry_count)
        return false;
    qsort(one->routes, one->route_count, sizeof *one->routes, by_prefix);
    qsort(other->routes, other->route_count, sizeof *other->routes, by_prefix);
    return same_items(one->routes, other->routes, one->route_count)
        && same_items(one->entries, other->entries, one->entry_count);
}
