/*
 * Both stores begin with 1,016 words of header, and go on in records of eight words. The layout is that of
 * docs/DESIGN.md: record 0 belongs to the header and has the root's cell, so that no step has a case for the root.
 */
#include "twin.h"

#include <stdbool.h>

enum { HEADER_WORDS = 1016, RESERVED_WORDS = 1024, TABLE_WORDS_A_ROUTE = 16, CACHE_WORDS_AN_ENTRY = 8 };

/* ---- addresses */

static inline uint32_t bit_at(uint32_t address, uint32_t index)
{
    return (address >> (31 - index)) & 1;
}

/* Whether two addresses agree in their first `length` bits; 64 bits wide, so that no shift is by 32. */
static inline bool agree(uint32_t one, uint32_t other, uint32_t length)
{
    return (uint64_t)(one ^ other) >> (32 - length) == 0;
}

static inline uint32_t common_bits(uint32_t one, uint32_t other, uint32_t length)
{
    uint32_t different = one ^ other;
    uint32_t agreed = different == 0 ? 32 : (uint32_t)__builtin_clz(different);
    return agreed < length ? agreed : length;
}

static inline uint32_t trim(uint32_t address, uint32_t length)
{
    return (uint32_t)((uint64_t)address >> (32 - length) << (32 - length));
}

/* ---- sizes and set-up */

uint32_t twin_entries_for(uint64_t bytes, uint32_t *entries)
{
    *entries = 0;
    if (bytes < KOP_BYTES_MIN)
        return KOP_BYTES_TOO_FEW;
    if (bytes > KOP_BYTES_MAX)
        return KOP_BYTES_TOO_MANY;
    *entries = (uint32_t)((bytes - 4096) / 32);
    return KOP_DONE;
}

static uint32_t setup_number(size_t words, size_t words_for_each, uint32_t limit)
{
    if (limit == 0 || limit > KOP_LIMIT_MAX)
        return KOP_LIMIT_OUT_OF_RANGE;
    return words < RESERVED_WORDS + words_for_each * limit ? KOP_STORE_TOO_SHORT : KOP_DONE;
}

#include "twin_table.h"
#include "twin_cache.h"

/* ---- the lookup */

static inline void set_answer(uint32_t answer[5], uint32_t kind, uint32_t hop, uint32_t address, uint32_t length,
                              uint32_t examined)
{
    answer[KOP_KIND] = kind;
    answer[KOP_HOP] = hop;
    answer[KOP_STORED_ADDRESS] = address;
    answer[KOP_STORED_LENGTH] = length;
    answer[KOP_NODES_EXAMINED] = examined;
}

/* No entry contains the address; `past` is one more than the most bits that any has in common with it. */
static void miss(const struct node *nodes, uint32_t *cache, struct kop_tallies *tallies, uint32_t address,
                 uint32_t past, uint32_t answer[5])
{
    struct stop stop = descend(nodes, address, 32);
    if (stop.best == 0) {
        tallies->drops++;
        set_answer(answer, KOP_DROP, 0, 0, 0, stop.examined);
        return;
    }
    uint32_t hop = nodes[stop.best].mark - 1, length = least_length(nodes, address, stop);
    uint32_t entries = cache[CACHE_ENTRIES];
    if (length < past)
        length = past;
    if (entries == cache[CACHE_LIMIT]) {
        remove_entry(cache, entries, slots_in(cache)[0].prev);
        entries--;
        tallies->evicted++;
    }
    insert_entry(cache, entries, address, length, hop);
    tallies->misses++;
    set_answer(answer, KOP_MISS, hop, trim(address, length), length, stop.examined);
}

uint32_t twin_lookup(const uint32_t *table, size_t table_words, uint32_t *cache, size_t cache_words,
                     struct kop_tallies *tallies, uint32_t address, uint32_t answer[5])
{
    (void)table_words, (void)cache_words;
    struct slot *slots = slots_in(cache);
    uint32_t past = 0;
    if (cache[CACHE_ENTRIES] != 0) {
        uint32_t place = walk(slots, address) / 2, packed = slots[place].packed, length = packed % 64;
        if (agree(slots[place].address, address, length)) {
            unlink_slot(slots, place);
            put_between(slots, 0, place, slots[0].next);
            tallies->hits++;
            set_answer(answer, KOP_HIT, packed / 64, 0, 0, 0);
            return KOP_DONE;
        }
        past = 1 + common_bits(address, slots[place].address, length);
    }
    miss(nodes_of(table), cache, tallies, address, past, answer);
    return KOP_DONE;
}

/* ---- updates of the pair */

/* Whether two prefixes overlap: they agree in the bits of the shorter. */
static inline bool overlaps(uint32_t one, uint32_t length, uint32_t other, uint32_t other_length)
{
    return agree(one, other, length < other_length ? length : other_length);
}

/*
 * Entries that overlap the updated prefix are judged by the new table, from the last slot to the first; what moves into a
 * slot is looked at there.
 */
static void refresh(const struct node *nodes, uint32_t *cache, bool withdrawn, uint32_t address, uint32_t length,
                    uint32_t answer[2])
{
    struct slot *slots = slots_in(cache);
    uint32_t entries = cache[CACHE_ENTRIES], place = entries;
    while (place != 0) {
        struct slot *slot = &slots[place];
        uint32_t own = slot->packed % 64;
        if (!overlaps(slot->address, own, address, length)) {
            place--;
            continue;
        }
        struct standing standing = judge(nodes, slot->address, own);
        if (standing.mark == 0 || standing.inside
            || (withdrawn && own == length && agree(slot->address, address, length))) {
            remove_entry(cache, entries--, place);
            answer[KOP_REMOVED]++;
            if (place > entries)
                place = entries;
            continue;
        }
        if (slot->packed / 64 != standing.mark - 1) {
            slot->packed = (standing.mark - 1) * 64 + own;
            answer[KOP_CHANGED]++;
        }
        place--;
    }
}

uint32_t twin_announce(uint32_t *table, size_t table_words, uint32_t *cache, size_t cache_words,
                       struct kop_tallies *tallies, uint32_t address, uint32_t length, uint32_t hop,
                       uint32_t answer[2])
{
    (void)table_words, (void)cache_words;
    answer[KOP_REMOVED] = answer[KOP_CHANGED] = 0;
    if (length > KOP_LENGTH_MAX)
        return KOP_LENGTH_ABOVE_32;
    if (hop == 0 || hop > KOP_HOP_MAX)
        return KOP_HOP_OUT_OF_RANGE;
    uint32_t number = announce_route(table, address, length, hop);
    if (number != KOP_DONE)
        return number;
    refresh(nodes_of(table), cache, false, address, length, answer);
    tallies->removed += answer[KOP_REMOVED];
    return KOP_DONE;
}

uint32_t twin_withdraw(uint32_t *table, size_t table_words, uint32_t *cache, size_t cache_words,
                       struct kop_tallies *tallies, uint32_t address, uint32_t length, uint32_t answer[2])
{
    (void)table_words, (void)cache_words;
    answer[KOP_REMOVED] = answer[KOP_CHANGED] = 0;
    if (length > KOP_LENGTH_MAX)
        return KOP_LENGTH_ABOVE_32;
    uint32_t number = withdraw_route(table, address, length);
    if (number != KOP_DONE)
        return number;
    refresh(nodes_of(table), cache, true, address, length, answer);
    tallies->removed += answer[KOP_REMOVED];
    return KOP_DONE;
}

/* ---- the checks: these take any content, so every number is held against the records in use before it is followed */

/* What a cell points at, if anything, points back and goes on from the cell's own prefix by its side. */
static bool table_cell_ok(const struct node *nodes, uint32_t count, uint32_t cell)
{
    uint32_t place = nodes[cell / 2].child[cell % 2];
    if (place == 0)
        return true;
    if (place > count || nodes[place].up != cell)
        return false;
    if (cell == 0)
        return true;
    const struct node *above = &nodes[cell / 2], *node = &nodes[place];
    return above->length < node->length && node->length <= 32 && bit_at(node->address, above->length) == cell % 2
        && agree(above->address, node->address, above->length);
}

static bool node_ok(const struct node *nodes, uint32_t count, uint32_t place)
{
    const struct node *node = &nodes[place];
    uint32_t cell = node->up;
    if (node->length > 32)
        return false;
    if (node->mark == 0 ? node->child[0] == 0 || node->child[1] == 0 : node->mark < 2 || node->mark > 65536)
        return false;
    if (cell == 1 || cell / 2 > count || nodes[cell / 2].child[cell % 2] != place)
        return false;
    return table_cell_ok(nodes, count, 2 * place) && table_cell_ok(nodes, count, 2 * place + 1);
}

uint32_t twin_table_check(const uint32_t *table, size_t table_words)
{
    if (table_words < RESERVED_WORDS
        || setup_number(table_words, TABLE_WORDS_A_ROUTE, table[TABLE_LIMIT]) != KOP_DONE
        || table[TABLE_NODES] > 2 * table[TABLE_LIMIT] || table[TABLE_ROUTES] > table[TABLE_LIMIT])
        return 0;
    const struct node *nodes = nodes_of(table);
    uint32_t count = table[TABLE_NODES], routes = 0;
    if (!table_cell_ok(nodes, count, 0))
        return 0;
    for (uint32_t place = 1; place <= count; place++) {
        if (!node_ok(nodes, count, place))
            return 0;
        routes += nodes[place].mark != 0;
    }
    return routes == table[TABLE_ROUTES];
}

/* The ring leads from slot 0 through every slot in use once and back, and prev undoes each step. */
static bool ring_ok(const struct slot *slots, uint32_t entries)
{
    uint32_t at = 0;
    for (uint32_t step = 0; step <= entries; step++) {
        uint32_t next = slots[at].next;
        if (next > entries || slots[next].prev != at)
            return false;
        if (next == 0)
            return step == entries;
        at = next;
    }
    return false;
}

/* A node hangs in a cell in use, which points at it. */
static bool hangs(const struct slot *slots, uint32_t entries, uint32_t node)
{
    uint32_t cell = up_of(slots, node);
    return (cell == 0 || (cell >= 4 && cell / 2 <= entries)) && slots[cell / 2].child[cell % 2] == node;
}

/* What a cell in use points at is a node in use that points back and goes on from the cell's branch. */
static bool cache_cell_ok(const struct slot *slots, uint32_t entries, uint32_t cell)
{
    uint32_t node = slots[cell / 2].child[cell % 2];
    if (node < 2 || node == 3 || node / 2 > entries || up_of(slots, node) != cell)
        return false;
    if (cell == 0)
        return true;
    const struct slot *above = &slots[cell / 2], *below = &slots[node / 2];
    uint32_t length = above->branch % 64;
    return length < 32 && below->packed % 64 > length && (node % 2 == 0 || below->branch % 64 > length)
        && bit_at(below->address, length) == cell % 2 && agree(above->address, below->address, length);
}

static bool slot_ok(const struct slot *slots, uint32_t entries, uint32_t place)
{
    const struct slot *slot = &slots[place];
    if (slot->packed % 64 > 32 || !hangs(slots, entries, 2 * place))
        return false;
    return place == 1
        || (slot->branch % 64 < slot->packed % 64 && hangs(slots, entries, 2 * place + 1)
            && cache_cell_ok(slots, entries, 2 * place) && cache_cell_ok(slots, entries, 2 * place + 1));
}

static bool entries_ok(const uint32_t *cache, size_t cache_words)
{
    if (cache_words < RESERVED_WORDS
        || setup_number(cache_words, CACHE_WORDS_AN_ENTRY, cache[CACHE_LIMIT]) != KOP_DONE
        || cache[CACHE_ENTRIES] > cache[CACHE_LIMIT])
        return false;
    const struct slot *slots = slots_of(cache);
    uint32_t entries = cache[CACHE_ENTRIES];
    if (entries == 0 ? slots[0].child[0] != 0 : !cache_cell_ok(slots, entries, 0))
        return false;
    for (uint32_t place = 1; place <= entries; place++)
        if (!slot_ok(slots, entries, place))
            return false;
    return ring_ok(slots, entries);
}

uint32_t twin_check(const uint32_t *table, size_t table_words, const uint32_t *cache, size_t cache_words)
{
    if (!twin_table_check(table, table_words) || !entries_ok(cache, cache_words))
        return 0;
    const struct slot *slots = slots_of(cache);
    for (uint32_t place = 1; place <= cache[CACHE_ENTRIES]; place++) {
        struct standing standing = judge(nodes_of(table), slots[place].address, slots[place].packed % 64);
        if (standing.mark == 0 || standing.inside || slots[place].packed / 64 != standing.mark - 1)
            return 0;
    }
    return 1;
}

/* ---- tallies */

void twin_tallies_since(const struct kop_tallies *now, const struct kop_tallies *then, struct kop_tallies *difference)
{
    difference->hits = now->hits - then->hits;
    difference->misses = now->misses - then->misses;
    difference->drops = now->drops - then->drops;
    difference->evicted = now->evicted - then->evicted;
    difference->removed = now->removed - then->removed;
}

uint32_t twin_held(const struct kop_tallies *tallies)
{
    return tallies->misses - tallies->evicted - tallies->removed;
}
