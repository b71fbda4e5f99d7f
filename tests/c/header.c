/*
 * The header alone, as C11 and as C++17: included twice, its numbers against those of the rules, and one call of each name
 * taken by address with its type, so that a program in either language links.
 */
#include "koprzywist.h"
#include "koprzywist.h"

#ifdef __cplusplus
#define HOLDS(fact) static_assert(fact, "")
#else
#define HOLDS(fact) _Static_assert(fact, "")
#endif

HOLDS(KOP_LIMIT_MAX == 1048576);
HOLDS(KOP_BYTES_MIN == 4128);
HOLDS(KOP_BYTES_MAX == 33558559);
HOLDS(KOP_TABLE_WORDS(1) == 1040);
HOLDS(KOP_TABLE_WORDS(KOP_LIMIT_MAX) == 1024 + 16777216);
HOLDS(KOP_CACHE_WORDS(1) == 1032);
HOLDS(KOP_CACHE_WORDS(2 + 1) == 1048);
HOLDS(KOP_CACHE_WORDS(KOP_LIMIT_MAX) == 1024 + 8388608);
HOLDS(sizeof(struct kop_tallies) == 5 * sizeof(uint32_t));
HOLDS(offsetof(struct kop_tallies, removed) == 4 * sizeof(uint32_t));

typedef struct kop_tallies tallies_record;

static uint32_t (*const entries_for)(uint64_t, uint32_t *) = kop_entries_for;
static uint32_t (*const setups[])(uint32_t *, size_t, uint32_t) = { kop_table_setup, kop_cache_setup };
static uint32_t (*const lookup)(const uint32_t *, size_t, uint32_t *, size_t, tallies_record *, uint32_t, uint32_t *)
    = kop_lookup;
static uint32_t (*const announce)(uint32_t *, size_t, uint32_t *, size_t, tallies_record *, uint32_t, uint32_t,
                                  uint32_t, uint32_t *)
    = kop_announce;
static uint32_t (*const withdraw)(uint32_t *, size_t, uint32_t *, size_t, tallies_record *, uint32_t, uint32_t,
                                  uint32_t *)
    = kop_withdraw;
static uint32_t (*const table_check)(const uint32_t *, size_t) = kop_table_check;
static uint32_t (*const check)(const uint32_t *, size_t, const uint32_t *, size_t) = kop_check;
static void (*const since)(const tallies_record *, const tallies_record *, tallies_record *) = kop_tallies_since;
static uint32_t (*const held)(const tallies_record *) = kop_held;

static uint32_t table[KOP_TABLE_WORDS(1)], cache[KOP_CACHE_WORDS(1)];

int main(void)
{
    tallies_record tallies = { 0, 0, 0, 0, 0 }, first = tallies, difference;
    uint32_t entries, counts[2], answer[5], wrong = 0;
    wrong |= entries_for(KOP_BYTES_MIN, &entries) != KOP_DONE || entries != 1;
    wrong |= setups[0](table, KOP_TABLE_WORDS(1), 1) != KOP_DONE || setups[1](cache, KOP_CACHE_WORDS(1), 1) != KOP_DONE;
    wrong |= announce(table, KOP_TABLE_WORDS(1), cache, KOP_CACHE_WORDS(1), &tallies, 0, 0, KOP_HOP_MAX, counts) != KOP_DONE;
    wrong |= lookup(table, KOP_TABLE_WORDS(1), cache, KOP_CACHE_WORDS(1), &tallies, 1, answer) != KOP_DONE;
    wrong |= answer[KOP_KIND] != KOP_MISS || answer[KOP_HOP] != KOP_HOP_MAX || held(&tallies) != 1;
    wrong |= table_check(table, KOP_TABLE_WORDS(1)) != 1 || check(table, KOP_TABLE_WORDS(1), cache, KOP_CACHE_WORDS(1)) != 1;
    wrong |= withdraw(table, KOP_TABLE_WORDS(1), cache, KOP_CACHE_WORDS(1), &tallies, 0, 0, counts) != KOP_DONE;
    since(&tallies, &first, &difference);
    wrong |= counts[KOP_REMOVED] != 1 || difference.misses != 1 || difference.removed != 1;
    return wrong ? 1 : 0;
}
