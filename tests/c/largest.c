/*
 * Both stores at their largest limits, lent to the word and filled to the brim: 1,048,576 routes, which cut all addresses
 * into prefixes of 20 bits, and an entry for each. What comes next is refused, evicted or removed as the rules say, and
 * room that was freed is used again.
 */
#include "koprzywist.h"

#include <stdbool.h>
#include <stdio.h>
#include <stdlib.h>

enum { ALL = 1048576, LENGTH = 20, DEFAULT_HOP = 7 };

static uint32_t *table, *cache;
static struct kop_tallies tallies;
static uint32_t answer[5], counts[2];

static void expect(bool holds, const char *what)
{
    if (holds)
        return;
    fprintf(stderr, "largest: %s\n", what);
    exit(1);
}

/* The i-th prefix and its hop; an odd factor visits each prefix once, neighbours far apart. */
static uint32_t prefix_of(uint32_t i)
{
    return i * UINT32_C(0x9e3779b1) << (32 - LENGTH);
}

static uint32_t hop_of(uint32_t i)
{
    return 1 + i % 65535;
}

static uint32_t announce(uint32_t address, uint32_t length, uint32_t hop)
{
    return kop_announce(table, KOP_TABLE_WORDS(ALL), cache, KOP_CACHE_WORDS(ALL), &tallies, address, length, hop, counts);
}

static uint32_t withdraw(uint32_t address, uint32_t length)
{
    return kop_withdraw(table, KOP_TABLE_WORDS(ALL), cache, KOP_CACHE_WORDS(ALL), &tallies, address, length, counts);
}

static bool counted(uint32_t removed, uint32_t changed)
{
    return counts[KOP_REMOVED] == removed && counts[KOP_CHANGED] == changed;
}

static void look_up(uint32_t address)
{
    uint32_t number
        = kop_lookup(table, KOP_TABLE_WORDS(ALL), cache, KOP_CACHE_WORDS(ALL), &tallies, address, answer);
    expect(number == KOP_DONE, "a lookup is refused");
}

static bool answered(uint32_t kind, uint32_t hop, uint32_t address, uint32_t length)
{
    return answer[KOP_KIND] == kind && answer[KOP_HOP] == hop && answer[KOP_STORED_ADDRESS] == address
        && answer[KOP_STORED_LENGTH] == length;
}

static bool sound(void)
{
    return kop_check(table, KOP_TABLE_WORDS(ALL), cache, KOP_CACHE_WORDS(ALL)) == 1;
}

static void set_up(void)
{
    uint32_t entries;
    expect(kop_entries_for(KOP_BYTES_MAX, &entries) == KOP_DONE && entries == ALL, "entries for the largest figure");
    table = malloc(KOP_TABLE_WORDS(ALL) * sizeof *table);
    cache = malloc(KOP_CACHE_WORDS(ALL) * sizeof *cache);
    expect(table != NULL && cache != NULL, "no memory");
    expect(kop_table_setup(table, KOP_TABLE_WORDS(ALL) - 1, ALL) == KOP_STORE_TOO_SHORT, "a table one word too short");
    expect(kop_cache_setup(cache, KOP_CACHE_WORDS(ALL) - 1, ALL) == KOP_STORE_TOO_SHORT, "a cache one word too short");
    expect(kop_table_setup(table, KOP_TABLE_WORDS(ALL), ALL) == KOP_DONE, "table set-up");
    expect(kop_cache_setup(cache, KOP_CACHE_WORDS(ALL), ALL) == KOP_DONE, "cache set-up");
}

static void fill_table(void)
{
    for (uint32_t i = 0; i < ALL; i++)
        expect(announce(prefix_of(i), LENGTH, hop_of(i)) == KOP_DONE && counted(0, 0), "a route of the limit");
    expect(announce(0, 0, DEFAULT_HOP) == KOP_TABLE_FULL && counted(0, 0), "a route past the limit");
    expect(announce(prefix_of(5), LENGTH, hop_of(5)) == KOP_DONE, "a route that is held, in a full table");
    expect(kop_table_check(table, KOP_TABLE_WORDS(ALL)) == 1, "a full table is not sound");
}

/* The tree has a node for every prefix of at most 20 bits: 21 of them contain each address. */
static void fill_cache(void)
{
    for (uint32_t i = 0; i < ALL; i++) {
        look_up(prefix_of(i) | (i & 4095));
        expect(answered(KOP_MISS, hop_of(i), prefix_of(i), LENGTH) && answer[KOP_NODES_EXAMINED] == LENGTH + 1,
               "a miss that fills the cache");
    }
    expect(kop_held(&tallies) == ALL && tallies.evicted == 0, "the entries held");
    for (uint32_t i = ALL / 2; i < ALL; i += 7) {
        look_up(prefix_of(i) | 99);
        expect(answered(KOP_HIT, hop_of(i), 0, 0) && answer[KOP_NODES_EXAMINED] == 0, "a hit in a full cache");
    }
    expect(sound(), "full stores are not sound");
}

/* Two routes go, a default route and a host route come; the host's neighbours fill the cache and evict the oldest. */
static void replace_some(void)
{
    uint32_t gone = prefix_of(1000), other = prefix_of(2000);
    expect(withdraw(gone, LENGTH) == KOP_DONE && counted(1, 0), "a withdrawal removes its own entry");
    look_up(gone);
    expect(answered(KOP_DROP, 0, 0, 0), "a prefix without a route");
    expect(withdraw(gone, LENGTH) == KOP_ROUTE_NOT_HELD && counted(0, 0), "a route that is not held");
    expect(withdraw(other, LENGTH) == KOP_DONE && counted(1, 0), "a second withdrawal");
    expect(announce(0, 0, DEFAULT_HOP) == KOP_DONE && counted(0, 0), "the room of a route is used again");
    expect(announce(gone, 32, 9) == KOP_DONE && counted(0, 0), "the room of a second route");
    expect(announce(other, LENGTH, 9) == KOP_TABLE_FULL, "the table is full again");
    for (uint32_t length = LENGTH + 1; length <= 32; length++) {
        uint32_t address = gone | UINT32_C(1) << (32 - length);
        look_up(address);
        expect(answered(KOP_MISS, DEFAULT_HOP, address, length), "a neighbour of the host route");
    }
    expect(tallies.evicted == 32 - LENGTH - 2 && kop_held(&tallies) == ALL, "entries evicted from a full cache");
    for (uint32_t i = 0; i < 12; i++) { /* the ten oldest have left, and the ten after them have not */
        look_up(prefix_of(20 - 1 - i));
        expect(answer[KOP_KIND] == (i < 10 ? KOP_HIT : KOP_MISS), "the order of use in a full cache");
    }
    expect(sound(), "full stores are not sound after updates");
}

int main(void)
{
    set_up();
    fill_table();
    fill_cache();
    replace_some();
    printf("%d routes and as many entries, %u lookups, %u evicted, %u removed\n", ALL,
           tallies.hits + tallies.misses + tallies.drops, tallies.evicted, tallies.removed);
    free(table);
    free(cache);
    return 0;
}
