/*
 * Drives the library and the model through the same random calls, from many seeds and limits, and compares every number,
 * answer and tally, the check of soundness, and now and then every route and entry that the stores hold.
 *
 *   random_calls [rounds [first seed]]
 *
 * A run in which something the rules speak of came about too rarely fails too: it would not have tested that.
 */
#include "calls.h"

#include <inttypes.h>
#include <stdio.h>
#include <stdlib.h>
#include <string.h>

enum { ROUNDS = 400, CALLS_A_ROUND = 1000, LARGEST_TABLE = 2000, LARGEST_CACHE = 300, SPARE_WORDS = 24 };

/* ---- what has come about */

enum event {
    HITS, MISSES, DROPS, EVICTIONS, ANNOUNCED_NEW, ANNOUNCED_HELD, HELD_IN_FULL_TABLE, WITHDRAWN, REMOVED_BY_ANNOUNCING,
    REMOVED_BY_WITHDRAWING, CHANGED_BY_ANNOUNCING, CHANGED_BY_WITHDRAWING, DEEP_DESCENTS, STORED_PAST_ITS_MATCH,
    SETUPS, REFUSALS, EVENTS = REFUSALS + 10
};

static const struct {
    const char *name;
    uint64_t least;
} events[EVENTS] = {
    [HITS] = { "hits", 20000 },
    [MISSES] = { "misses", 20000 },
    [DROPS] = { "drops", 5000 },
    [EVICTIONS] = { "evictions", 5000 },
    [ANNOUNCED_NEW] = { "routes announced", 5000 },
    [ANNOUNCED_HELD] = { "routes announced again", 5000 },
    [HELD_IN_FULL_TABLE] = { "routes announced again in a full table", 1000 },
    [WITHDRAWN] = { "routes withdrawn", 5000 },
    [REMOVED_BY_ANNOUNCING] = { "announcements that removed entries", 2000 },
    [REMOVED_BY_WITHDRAWING] = { "withdrawals that removed entries", 2000 },
    [CHANGED_BY_ANNOUNCING] = { "announcements that changed hops", 2000 },
    [CHANGED_BY_WITHDRAWING] = { "withdrawals that changed hops", 1000 },
    [DEEP_DESCENTS] = { "lookups that examined six nodes or more", 2000 },
    [STORED_PAST_ITS_MATCH] = { "misses that stored more than their match", 5000 },
    [SETUPS] = { "set-ups in mid-run", 100 },
    [REFUSALS + 1] = { "refusals 1", 2000 },
    [REFUSALS + 2] = { "refusals 2", 2000 },
    [REFUSALS + 3] = { "refusals 3", 2000 },
    [REFUSALS + 4] = { "refusals 4", 2000 },
    [REFUSALS + 5] = { "refusals 5", 300 },
    [REFUSALS + 6] = { "refusals 6", 300 },
    [REFUSALS + 7] = { "refusals 7", 300 },
    [REFUSALS + 8] = { "refusals 8", 300 },
};

static uint64_t counts[EVENTS], calls_made;

/* ---- one round: a pair of stores, the model beside it, and room to compare them in */

struct round {
    uint64_t seed;
    uint32_t number;
    struct dice dice;
    struct world world;
    struct pair pair;
    struct model model, read;
    struct kop_tallies first; /* the tallies that the round began with */
    uint32_t *table_before, *cache_before;
};

static void fail(const struct round *round, const char *what)
{
    fprintf(stderr, "random_calls: seed %" PRIu64 ", call %" PRIu32 ", limits %" PRIu32 " and %" PRIu32 ": %s\n",
            round->seed, round->number, round->model.route_limit, round->model.entry_limit, what);
    exit(1);
}

static void expect(const struct round *round, bool holds, const char *what)
{
    if (!holds)
        fail(round, what);
}

static void *room(size_t words)
{
    void *memory = malloc(words * sizeof(uint32_t));
    if (memory == NULL) {
        fprintf(stderr, "random_calls: no memory\n");
        exit(1);
    }
    return memory;
}

static void fill(struct dice *dice, uint32_t *words, size_t count)
{
    for (size_t i = 0; i < count; i++)
        words[i] = (uint32_t)roll(dice);
}

static bool same_tallies(struct kop_tallies one, struct kop_tallies other)
{
    return one.hits == other.hits && one.misses == other.misses && one.drops == other.drops
        && one.evicted == other.evicted && one.removed == other.removed;
}

static void copy_before(struct round *round)
{
    memcpy(round->table_before, round->pair.table, round->pair.table_words * sizeof(uint32_t));
    memcpy(round->cache_before, round->pair.cache, round->pair.cache_words * sizeof(uint32_t));
}

static bool table_kept(const struct round *round)
{
    return memcmp(round->table_before, round->pair.table, round->pair.table_words * sizeof(uint32_t)) == 0;
}

static bool cache_kept(const struct round *round)
{
    return memcmp(round->cache_before, round->pair.cache, round->pair.cache_words * sizeof(uint32_t)) == 0;
}

static uint32_t check_pair(const struct pair *pair)
{
    return kop_check(pair->table, pair->table_words, pair->cache, pair->cache_words);
}

/* ---- set-up */

/* Tallies begin at 0, or just before they wrap. */
static void begin_tallies(struct round *round)
{
    struct kop_tallies first = { 0, 0, 0, 0, 0 };
    if (round->seed % 3 == 0)
        first = (struct kop_tallies){ UINT32_MAX - 9, UINT32_MAX - 5, UINT32_MAX, UINT32_MAX - 3, UINT32_MAX - 1 };
    round->first = round->pair.tallies = round->model.tallies = first;
}

static void set_up_cache(struct round *round)
{
    struct pair *pair = &round->pair;
    expect(round, kop_cache_setup(pair->cache, pair->cache_words, round->model.entry_limit) == 0, "cache set-up");
    round->model.entry_count = 0;
    begin_tallies(round);
}

/* A table set up again ends a pair whose cache holds entries; a cache set up again makes it sound. */
static void set_up_both(struct round *round)
{
    struct pair *pair = &round->pair;
    expect(round, kop_table_setup(pair->table, pair->table_words, round->model.route_limit) == 0, "table set-up");
    expect(round, kop_table_check(pair->table, pair->table_words) == 1, "an empty table is not sound");
    round->model.route_count = 0;
    expect(round, check_pair(pair) == (round->model.entry_count == 0), "the check of a new table under a cache");
    set_up_cache(round);
}

/* Set-up that is refused: 8 before 7, and no word changes. */
static void refused_setups(struct round *round)
{
    static const uint32_t limits[] = { 0, 1048577, UINT32_MAX };
    struct dice *dice = &round->dice;
    struct pair *pair = &round->pair;
    uint32_t bad = limits[roll_below(dice, 3)];
    uint32_t limit = 1 + roll_below(dice, roll_percent(dice, 50) ? 1048576 : LARGEST_TABLE);
    size_t few = KOP_TABLE_WORDS(limit) - 1, words = few < pair->table_words ? few : pair->table_words;
    copy_before(round);
    uint32_t number = kop_table_setup(pair->table, words, limit);
    expect(round, number == model_setup(words, 16, limit) && number == 7, "a table set-up too short");
    number = kop_table_setup(pair->table, roll_percent(dice, 50) ? 0 : pair->table_words, bad);
    expect(round, number == 8, "a table set-up without a legal limit");
    few = KOP_CACHE_WORDS(limit) - 1, words = few < pair->cache_words ? few : pair->cache_words;
    number = kop_cache_setup(pair->cache, words, limit);
    expect(round, number == model_setup(words, 8, limit) && number == 7, "a cache set-up too short");
    number = kop_cache_setup(pair->cache, roll_percent(dice, 50) ? 0 : pair->cache_words, bad);
    expect(round, number == 8, "a cache set-up without a legal limit");
    expect(round, table_kept(round) && cache_kept(round), "a refused set-up changed a word");
    counts[REFUSALS + 7] += 2;
    counts[REFUSALS + 8] += 2;
    calls_made += 4;
}

static void set_up_again(struct round *round)
{
    counts[SETUPS]++;
    calls_made++;
    refused_setups(round);
    if (roll_percent(&round->dice, 50))
        set_up_both(round);
    else
        set_up_cache(round);
}

/* ---- sizes */

static void sizes(struct round *round)
{
    static const uint64_t edges[] = { 0, 4095, 4096, 4127, 4128, 4159, 4160, 33558527, 33558528, 33558559, 33558560,
                                      UINT64_C(0x80000000), UINT64_C(0x100000000), UINT64_C(0x100001020), UINT64_MAX };
    uint32_t kind = roll_below(&round->dice, 24), entries = 7, expected;
    uint64_t bytes = roll(&round->dice) >> (kind % 4 * 20);
    if (kind < sizeof edges / sizeof edges[0])
        bytes = edges[kind];
    else if (kind < 20)
        bytes %= 33558560;
    uint32_t number = kop_entries_for(bytes, &entries);
    expect(round, number == model_entries_for(bytes, &expected) && entries == expected, "entries for a memory figure");
    counts[REFUSALS + number] += number != 0;
    calls_made++;
}

/* ---- calls */

/* The match of a lookup is looked for again, since the answer does not tell it. */
static void count_lookup(const struct round *round, struct call call, const uint32_t answer[5], uint32_t evicted)
{
    static const enum event kinds[] = { HITS, MISSES, DROPS };
    counts[kinds[answer[0]]]++;
    counts[EVICTIONS] += evicted;
    counts[DEEP_DESCENTS] += answer[4] >= 6;
    if (answer[0] == KOP_MISS) {
        const struct model *model = &round->model;
        const struct model_item *match = model_match(model->routes, model->route_count, model_prefix_of(call.address, 32));
        counts[STORED_PAST_ITS_MATCH] += answer[3] > match->prefix.length;
    }
}

static void count_update(struct round *round, struct call call, const uint32_t answer[2], uint32_t routes_before)
{
    bool announced = call.kind == CALL_ANNOUNCE, held = round->model.route_count == routes_before;
    if (announced) {
        counts[held ? ANNOUNCED_HELD : ANNOUNCED_NEW]++;
        counts[HELD_IN_FULL_TABLE] += held && routes_before == round->model.route_limit;
    } else {
        counts[WITHDRAWN]++;
    }
    counts[announced ? REMOVED_BY_ANNOUNCING : REMOVED_BY_WITHDRAWING] += answer[0] != 0;
    counts[announced ? CHANGED_BY_ANNOUNCING : CHANGED_BY_WITHDRAWING] += answer[1] != 0;
}

static void compare_contents(struct round *round)
{
    struct pair *pair = &round->pair;
    expect(round, kop_table_check(pair->table, pair->table_words) == 1, "the table is not sound");
    expect(round, read_table(pair->table, pair->table_words, &round->read), "the table's words make no sound table");
    expect(round, read_cache(pair->cache, pair->cache_words, &round->read), "the cache's words make no sound cache");
    expect(round, same_contents(&round->model, &round->read), "the stores do not hold the model's routes and entries");
    expect(round, model_legal(&round->read), "the stores hold an illegal state");
}

static void compare_tallies(struct round *round)
{
    struct kop_tallies now = round->pair.tallies, since;
    expect(round, same_tallies(now, round->model.tallies), "tallies");
    kop_tallies_since(&now, &round->first, &since);
    expect(round, since.hits == now.hits - round->first.hits && since.misses == now.misses - round->first.misses
                      && since.drops == now.drops - round->first.drops
                      && since.evicted == now.evicted - round->first.evicted
                      && since.removed == now.removed - round->first.removed, "the difference of two readings");
    expect(round, kop_held(&since) == round->model.entry_count, "entries held, by the tallies");
}

/* The nodes of the table by their definition: always where there are few routes, else now and then. */
static void compare_nodes(struct round *round, struct call call)
{
    uint32_t routes = round->model.route_count;
    if (call.kind != CALL_LOOKUP || (routes > 12 && roll_below(&round->dice, routes * routes) > 200))
        return;
    expect(round, model_nodes_examined(&round->model, call.address) == model_nodes_by_definition(&round->model, call.address),
           "the model's two counts of nodes examined differ");
}

static void one_call(struct round *round, struct mix mix)
{
    struct call call = roll_call(&round->dice, round->world, mix, &round->model);
    struct outcome real = { 77, { 1, 2, 3, 4, 5 } }, right = { 77, { 1, 2, 3, 4, 5 } };
    struct kop_tallies before = round->model.tallies;
    uint32_t routes_before = round->model.route_count;
    bool copied = roll_percent(&round->dice, 25);
    if (copied)
        copy_before(round);
    real.number = call_library(&round->pair, &round->pair.tallies, call, real.answer);
    right.number = call_model(&round->model, call, right.answer);
    expect(round, real.number == right.number, "the number");
    expect(round, memcmp(real.answer, right.answer, sizeof real.answer) == 0, "the answer");
    compare_tallies(round);
    expect(round, check_pair(&round->pair) == 1, "the pair is not sound");
    if (copied && (call.kind == CALL_LOOKUP || right.number != 0))
        expect(round, table_kept(round), "a lookup or a refused call changed the table");
    if (copied && right.number != 0)
        expect(round, cache_kept(round), "a refused call changed the cache");
    if (right.number != 0)
        counts[REFUSALS + right.number]++;
    else if (call.kind == CALL_LOOKUP)
        count_lookup(round, call, right.answer, round->model.tallies.evicted - before.evicted);
    else
        count_update(round, call, right.answer, routes_before);
    compare_nodes(round, call);
    calls_made++;
}

/* ---- a round, and all of them */

static void begin(struct round *round, uint64_t seed)
{
    struct dice *dice = &round->dice;
    *round = (struct round){ .seed = seed, .dice = { seed } };
    uint32_t route_limit = roll_limit(dice, LARGEST_TABLE), entry_limit = roll_limit(dice, LARGEST_CACHE);
    uint32_t spare_table = roll_below(dice, SPARE_WORDS), spare_cache = roll_below(dice, SPARE_WORDS);
    struct pair *pair = &round->pair;
    pair->table_words = KOP_TABLE_WORDS(route_limit) + spare_table;
    pair->cache_words = KOP_CACHE_WORDS(entry_limit) + spare_cache;
    pair->table = room(pair->table_words);
    pair->cache = room(pair->cache_words);
    round->table_before = room(pair->table_words);
    round->cache_before = room(pair->cache_words);
    fill(dice, pair->table, pair->table_words);
    fill(dice, pair->cache, pair->cache_words);
    round->world = roll_world(dice, route_limit);
    round->model = model_make(route_limit, entry_limit);
    round->read = model_make(route_limit, entry_limit);
}

static void end(struct round *round)
{
    free(round->pair.table);
    free(round->pair.cache);
    free(round->table_before);
    free(round->cache_before);
    model_free(&round->model);
    model_free(&round->read);
}

static void play(uint64_t seed)
{
    struct round round;
    begin(&round, seed);
    size_t table_need = KOP_TABLE_WORDS(round.model.route_limit), cache_need = KOP_CACHE_WORDS(round.model.entry_limit);
    copy_before(&round); /* the words past the need stay as they are to the end */
    uint32_t table_past[SPARE_WORDS], cache_past[SPARE_WORDS];
    size_t table_spare = round.pair.table_words - table_need, cache_spare = round.pair.cache_words - cache_need;
    memcpy(table_past, round.pair.table + table_need, table_spare * sizeof(uint32_t));
    memcpy(cache_past, round.pair.cache + cache_need, cache_spare * sizeof(uint32_t));
    set_up_cache(&round);
    set_up_both(&round);
    struct mix mix = { 80, 5 };
    uint32_t contents_every = 1 + round.model.route_limit / 32;
    for (round.number = 1; round.number <= CALLS_A_ROUND; round.number++) {
        if (round.number % 100 == 0)
            mix = roll_mix(&round.dice);
        one_call(&round, mix);
        if (round.number % contents_every == 0)
            compare_contents(&round);
        if (roll_percent(&round.dice, 3))
            sizes(&round);
        if (roll_below(&round.dice, 800) == 0)
            set_up_again(&round);
    }
    compare_contents(&round);
    expect(&round, memcmp(table_past, round.pair.table + table_need, table_spare * sizeof(uint32_t)) == 0
                       && memcmp(cache_past, round.pair.cache + cache_need, cache_spare * sizeof(uint32_t)) == 0,
           "a word past a store's need has changed");
    end(&round);
}

/* Every event, and whether one of them was rare. */
static bool report(uint64_t rounds)
{
    bool rare = false;
    printf("%" PRIu64 " calls in %" PRIu64 " rounds\n", calls_made, rounds);
    for (int i = 0; i < EVENTS; i++) {
        if (events[i].name == NULL)
            continue;
        bool few = rounds >= ROUNDS && counts[i] < events[i].least;
        printf("  %8" PRIu64 " %s%s\n", counts[i], events[i].name, few ? ": TOO RARE" : "");
        rare = rare || few;
    }
    return !rare;
}

int main(int count, char **arguments)
{
    uint64_t rounds = count > 1 ? strtoull(arguments[1], NULL, 10) : ROUNDS;
    uint64_t first = count > 2 ? strtoull(arguments[2], NULL, 10) : 1;
    for (uint64_t seed = first; seed < first + rounds; seed++)
        play(seed);
    return report(rounds) ? 0 : 1;
}
