/*
 * Times the library's calls and, in the same run and on the same arguments, the twin's.
 *
 *   bench FILE                      times every call, on the routes of the file, and prints a table in Markdown
 *   bench -                         the same on made-up routes
 *   bench FILE hits SIDE COUNT      makes COUNT lookups that hit, on side 0 (library) or 1 (twin): for a tool that
 *                                   counts instructions, on few routes, since a hit reads none
 *
 * Every figure is the median of five, in time of the processor. The two sides take turns, so that what else the machine
 * does meets both.
 */
#define _POSIX_C_SOURCE 200809L
#include "lpm.h"
#include "routes.h"
#include "twin.h"

#include <inttypes.h>
#include <stdio.h>
#include <stdlib.h>
#include <string.h>
#include <time.h>

enum {
    TURNS = 5,
    TRACE = 5000000,
    MISSES = 65536,
    TABLE_UPDATES = 20000, /* with an empty cache */
    PAIR_UPDATES = 2000,   /* with a cache whose entries every update looks at */
    UPDATE_ENTRIES = 4096,
    COUNTED_ROUTES = 30000,
    COUNTED_TRACE = 200000
};

static const double ZIPF_EXPONENT = 1.2;

/* ---- two sides: the same calls by another name */

struct calls {
    const char *name;
    uint32_t (*table_setup)(uint32_t *, size_t, uint32_t);
    uint32_t (*cache_setup)(uint32_t *, size_t, uint32_t);
    uint32_t (*lookup)(const uint32_t *, size_t, uint32_t *, size_t, struct kop_tallies *, uint32_t, uint32_t *);
    uint32_t (*announce)(uint32_t *, size_t, uint32_t *, size_t, struct kop_tallies *, uint32_t, uint32_t, uint32_t,
                         uint32_t *);
    uint32_t (*withdraw)(uint32_t *, size_t, uint32_t *, size_t, struct kop_tallies *, uint32_t, uint32_t, uint32_t *);
    uint32_t (*check)(const uint32_t *, size_t, const uint32_t *, size_t);
};

enum { LIBRARY, TWIN, SIDES };

static const struct calls calls_of[SIDES] = {
    { "library", kop_table_setup, kop_cache_setup, kop_lookup, kop_announce, kop_withdraw, kop_check },
    { "twin", twin_table_setup, twin_cache_setup, twin_lookup, twin_announce, twin_withdraw, twin_check },
};

struct side {
    struct calls calls;
    uint32_t *table, *cache;
    size_t table_words, cache_words;
    struct kop_tallies tallies;
};

static void fail(const char *what)
{
    fprintf(stderr, "bench: %s\n", what);
    exit(1);
}

/* Whole pages of two megabytes, so that neither side is luckier with its addresses. */
static uint32_t *store(size_t words)
{
    size_t page = (size_t)1 << 21, bytes = (words * sizeof(uint32_t) + page - 1) / page * page;
    void *memory = aligned_alloc(page, bytes);
    if (memory == NULL)
        fail("no memory");
    memset(memory, 0, bytes);
    return memory;
}

static void side_make(struct side *side, int which, uint32_t routes, uint32_t entries)
{
    *side = (struct side){ .calls = calls_of[which] };
    side->table_words = KOP_TABLE_WORDS(routes);
    side->cache_words = KOP_CACHE_WORDS(entries);
    side->table = store(side->table_words);
    side->cache = store(side->cache_words);
    if (side->calls.table_setup(side->table, side->table_words, routes) != KOP_DONE)
        fail("table set-up");
}

static void empty_cache(struct side *side, uint32_t entries)
{
    memset(&side->tallies, 0, sizeof side->tallies);
    if (side->calls.cache_setup(side->cache, side->cache_words, entries) != KOP_DONE)
        fail("cache set-up");
}

static void announce_all(struct side *side, const struct route *routes, uint32_t count)
{
    uint32_t answer[2];
    for (uint32_t i = 0; i < count; i++)
        if (side->calls.announce(side->table, side->table_words, side->cache, side->cache_words, &side->tallies,
                                 routes[i].address, routes[i].length, routes[i].hop, answer) != KOP_DONE)
            fail("announce");
}

static void withdraw_all(struct side *side, const struct route *routes, uint32_t count)
{
    uint32_t answer[2];
    for (uint32_t i = 0; i < count; i++)
        if (side->calls.withdraw(side->table, side->table_words, side->cache, side->cache_words, &side->tallies,
                                 routes[i].address, routes[i].length, answer) != KOP_DONE)
            fail("withdraw");
}

static void look_up_all(struct side *side, const uint32_t *addresses, uint32_t count)
{
    uint32_t answer[5];
    for (uint32_t i = 0; i < count; i++)
        side->calls.lookup(side->table, side->table_words, side->cache, side->cache_words, &side->tallies, addresses[i],
                           answer);
}

/* ---- time */

static double now(void)
{
    struct timespec time;
    clock_gettime(CLOCK_PROCESS_CPUTIME_ID, &time);
    return (double)time.tv_sec * 1e9 + (double)time.tv_nsec;
}

struct figure {
    double turns[SIDES + 1][TURNS]; /* the last one is for another library */
};

static int by_size(const void *left, const void *right)
{
    double one = *(const double *)left, other = *(const double *)right;
    return (one > other) - (one < other);
}

static double median(const double turns[TURNS])
{
    double sorted[TURNS];
    memcpy(sorted, turns, sizeof sorted);
    qsort(sorted, TURNS, sizeof *sorted, by_size);
    return sorted[TURNS / 2];
}

static void print_figure(const char *call, const struct figure *figure, bool other)
{
    double library = median(figure->turns[LIBRARY]), twin = median(figure->turns[TWIN]);
    printf("| %s | %.1f | %.1f | %.2f |", call, library, twin, library / twin);
    if (LPM_IS_THERE)
        other ? printf(" %.1f |", median(figure->turns[SIDES])) : printf(" |");
    printf("\n");
    fflush(stdout);
}

/* ---- lookups that hit */

static int by_address(const void *left, const void *right)
{
    uint32_t one = ((const uint32_t *)left)[0], other = ((const uint32_t *)right)[0];
    return (one > other) - (one < other);
}

/* The addresses of a trace that the cache's entries contain, in their order: a lookup of these changes no entry. */
static struct trace hits_of(const uint32_t *cache, const struct trace *trace)
{
    uint32_t entries = cache[1], (*ranges)[2] = need_memory(entries * sizeof *ranges);
    for (uint32_t i = 0; i < entries; i++) {
        const uint32_t *slot = cache + 1016 + (size_t)8 * (i + 1);
        uint32_t length = slot[1] % 64, mask = length == 0 ? 0 : UINT32_MAX << (32 - length);
        ranges[i][0] = slot[0] & mask;
        ranges[i][1] = slot[0] | ~mask;
    }
    qsort(ranges, entries, sizeof *ranges, by_address);
    struct trace hits = { need_memory(trace->count * sizeof(uint32_t)), 0 };
    for (uint32_t i = 0; i < trace->count; i++) {
        uint32_t address = trace->addresses[i], low = 0, high = entries;
        while (low < high) { /* the first range that begins after the address */
            uint32_t middle = low + (high - low) / 2;
            if (ranges[middle][0] <= address)
                low = middle + 1;
            else
                high = middle;
        }
        if (low > 0 && address <= ranges[low - 1][1])
            hits.addresses[hits.count++] = address;
    }
    free(ranges);
    return hits;
}

/* A cache that has seen the trace from empty: the trace's time, and then that of its hits alone. */
static void time_lookups(struct side sides[SIDES], const struct trace *trace, uint32_t entries)
{
    struct figure whole, hit;
    for (int turn = 0; turn < TURNS; turn++)
        for (int i = 0; i < SIDES; i++) {
            struct side *side = &sides[i];
            empty_cache(side, entries);
            double start = now();
            look_up_all(side, trace->addresses, trace->count);
            whole.turns[i][turn] = (now() - start) / trace->count;
        }
    struct trace hits = hits_of(sides[LIBRARY].cache, trace);
    for (int turn = 0; turn < TURNS; turn++)
        for (int i = 0; i < SIDES; i++) {
            struct kop_tallies before = sides[i].tallies;
            double start = now();
            look_up_all(&sides[i], hits.addresses, hits.count);
            hit.turns[i][turn] = (now() - start) / hits.count;
            if (sides[i].tallies.hits - before.hits != hits.count)
                fail("a lookup that should hit did not");
        }
    char call[80];
    snprintf(call, sizeof call, "hit, %" PRIu32 " entries", entries);
    print_figure(call, &hit, false);
    for (int turn = 0; LPM_IS_THERE && turn < TURNS; turn++) {
        double start = now();
        lpm_look_up_all(trace->addresses, trace->count);
        whole.turns[SIDES][turn] = (now() - start) / trace->count;
    }
    snprintf(call, sizeof call, "the whole trace, %" PRIu32 " entries, %.1f %% hits", entries,
             100 - 100.0 * sides[LIBRARY].tallies.misses / trace->count);
    print_figure(call, &whole, true);
    free(hits.addresses);
}

/* Destinations in turn, more of them than the cache holds: every lookup misses, evicts and stores. */
static void time_misses(struct side sides[SIDES], const struct routes *routes)
{
    struct trace trace = distinct_trace(routes, MISSES);
    struct figure figure;
    char call[80];
    for (int i = 0; i < SIDES; i++) {
        empty_cache(&sides[i], UPDATE_ENTRIES);
        look_up_all(&sides[i], trace.addresses, trace.count);
    }
    for (int turn = 0; turn < TURNS; turn++)
        for (int i = 0; i < SIDES; i++) {
            struct kop_tallies before = sides[i].tallies;
            double start = now();
            look_up_all(&sides[i], trace.addresses, trace.count);
            figure.turns[i][turn] = (now() - start) / trace.count;
            if (sides[i].tallies.evicted - before.evicted != trace.count)
                fail("a lookup that should miss and evict did not");
        }
    snprintf(call, sizeof call, "miss that evicts, %d entries", UPDATE_ENTRIES);
    print_figure(call, &figure, false);
    free(trace.addresses);
}

/* ---- updates: some routes go and come again */

static void time_updates(struct side sides[SIDES], const struct routes *routes, uint32_t count, const char *where)
{
    struct figure withdraw, announce;
    char call[80];
    for (int turn = 0; turn < TURNS; turn++) {
        const struct route *some = routes->list + random_below(routes->count - count);
        for (int i = 0; i < SIDES; i++) {
            double start = now();
            withdraw_all(&sides[i], some, count);
            double middle = now();
            announce_all(&sides[i], some, count);
            withdraw.turns[i][turn] = (middle - start) / count;
            announce.turns[i][turn] = (now() - middle) / count;
        }
        if (LPM_IS_THERE) {
            double start = now();
            lpm_withdraw_all(some, count);
            double middle = now();
            lpm_announce_all(some, count);
            withdraw.turns[SIDES][turn] = (middle - start) / count;
            announce.turns[SIDES][turn] = (now() - middle) / count;
        }
    }
    snprintf(call, sizeof call, "announce, %s", where);
    print_figure(call, &announce, true);
    snprintf(call, sizeof call, "withdraw, %s", where);
    print_figure(call, &withdraw, true);
}

static void time_check(struct side sides[SIDES])
{
    struct figure figure;
    char call[80];
    for (int turn = 0; turn < TURNS; turn++)
        for (int i = 0; i < SIDES; i++) {
            struct side *side = &sides[i];
            double start = now();
            uint32_t sound = side->calls.check(side->table, side->table_words, side->cache, side->cache_words);
            figure.turns[i][turn] = now() - start;
            if (sound != 1)
                fail("a pair that only calls have touched is not sound");
        }
    snprintf(call, sizeof call, "check, all routes and %" PRIu32 " entries", sides[LIBRARY].cache[1]);
    print_figure(call, &figure, false);
}

/* ---- all of it */

static bool same_words(const struct side *one, const struct side *other)
{
    return memcmp(one->table, other->table, one->table_words * sizeof(uint32_t)) == 0
        && memcmp(one->cache, other->cache, one->cache_words * sizeof(uint32_t)) == 0;
}

static void time_all(const struct routes *routes)
{
    static const uint32_t sizes[] = { 1024, 4096, 16384 };
    static struct side sides[SIDES];
    struct trace trace = zipf_trace(routes, TRACE, ZIPF_EXPONENT);
    char where[80];
    if (LPM_IS_THERE) {
        lpm_open(routes->count);
        lpm_announce_all(routes->list, routes->count);
    }
    for (int i = 0; i < SIDES; i++) {
        side_make(&sides[i], i, routes->count, 16384);
        empty_cache(&sides[i], 1);
        announce_all(&sides[i], routes->list, routes->count);
    }
    printf("%" PRIu32 " routes; a Zipf trace (exponent %.1f) of %d lookups; ns a call, median of %d.\n\n", routes->count,
           ZIPF_EXPONENT, TRACE, TURNS);
    printf("| call | library | twin | library / twin |%s\n", LPM_IS_THERE ? " " LPM_NAME " |" : "");
    printf("|---|---|---|---|%s\n", LPM_IS_THERE ? "---|" : "");
    for (size_t i = 0; i < sizeof sizes / sizeof sizes[0]; i++)
        time_lookups(sides, &trace, sizes[i]);
    time_misses(sides, routes);
    snprintf(where, sizeof where, "%d entries", UPDATE_ENTRIES);
    for (int i = 0; i < SIDES; i++) {
        empty_cache(&sides[i], UPDATE_ENTRIES);
        look_up_all(&sides[i], trace.addresses, trace.count / 5);
    }
    time_updates(sides, routes, PAIR_UPDATES, where);
    time_check(sides);
    for (int i = 0; i < SIDES; i++)
        empty_cache(&sides[i], UPDATE_ENTRIES);
    time_updates(sides, routes, TABLE_UPDATES, "no entries");
    printf("\nAfter the same calls the library's stores and the twin's are %s.\n",
           same_words(&sides[LIBRARY], &sides[TWIN]) ? "equal word for word" : "NOT equal word for word");
}

/* As many hits as asked, and beside them the same calls whatever the number is: two counts differ by the hits alone. */
static void count_hits(const struct routes *routes, int which, uint32_t count)
{
    static struct side side;
    struct routes few = { routes->list, routes->count < COUNTED_ROUTES ? routes->count : COUNTED_ROUTES };
    struct trace trace = zipf_trace(&few, COUNTED_TRACE, ZIPF_EXPONENT);
    side_make(&side, which, few.count, UPDATE_ENTRIES);
    empty_cache(&side, UPDATE_ENTRIES);
    announce_all(&side, few.list, few.count);
    look_up_all(&side, trace.addresses, trace.count);
    struct trace hits = hits_of(side.cache, &trace);
    look_up_all(&side, hits.addresses, count < hits.count ? count : hits.count);
}

int main(int count, char **arguments)
{
    if (count != 2 && !(count == 5 && strcmp(arguments[2], "hits") == 0))
        fail("wants a file of routes, or - for made-up ones");
    struct routes routes = strcmp(arguments[1], "-") == 0 ? routes_made_up() : routes_from(arguments[1]);
    if (count == 2)
        time_all(&routes);
    else
        count_hits(&routes, arguments[3][0] == '0' ? LIBRARY : TWIN, (uint32_t)strtoul(arguments[4], NULL, 10));
    return 0;
}
