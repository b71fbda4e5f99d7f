/*
 * A router's forwarding table in one page: memory, routes, lookups, a withdrawal, and the numbers to watch.
 *
 *   cc -std=c11 -Iinclude examples/router.c libkoprzywist.a -o router && ./router
 */
#include "koprzywist.h"

#include <stdio.h>
#include <stdlib.h>

#define ROUTES 1000u /* the most routes that the table will hold */

static uint32_t table[KOP_TABLE_WORDS(ROUTES)];
static uint32_t *cache;
static size_t cache_words;
static struct kop_tallies tallies; /* zero, as it has to be when the stores are set up */

static uint32_t address(uint32_t a, uint32_t b, uint32_t c, uint32_t d)
{
    return a << 24 | b << 16 | c << 8 | d;
}

static void print_address(uint32_t x)
{
    printf("%u.%u.%u.%u", x >> 24, x >> 16 & 255, x >> 8 & 255, x & 255);
}

/* Every refusal has a number; koprzywist.h says what it means. */
static void need(uint32_t number, const char *call)
{
    if (number == KOP_DONE)
        return;
    fprintf(stderr, "router: %s: refused with %u\n", call, number);
    exit(1);
}

/* The operator says how much memory the cache may have: 8,192 bytes are room for 128 entries. */
static void set_up(uint64_t cache_bytes)
{
    uint32_t entries;
    need(kop_entries_for(cache_bytes, &entries), "entries for the memory figure");
    cache_words = KOP_CACHE_WORDS(entries);
    cache = malloc(cache_words * sizeof *cache);
    if (cache == NULL) {
        fprintf(stderr, "router: no memory\n");
        exit(1);
    }
    need(kop_table_setup(table, KOP_TABLE_WORDS(ROUTES), ROUTES), "table set-up");
    need(kop_cache_setup(cache, cache_words, entries), "cache set-up");
    printf("a table of %u routes, a cache of %u entries\n", ROUTES, entries);
}

static void announce(uint32_t prefix, uint32_t length, uint32_t hop)
{
    uint32_t answer[2];
    need(kop_announce(table, KOP_TABLE_WORDS(ROUTES), cache, cache_words, &tallies, prefix, length, hop, answer),
         "announce");
    printf("announce ");
    print_address(prefix);
    printf("/%u by hop %u: %u entries removed, %u changed\n", length, hop, answer[KOP_REMOVED], answer[KOP_CHANGED]);
}

static void withdraw(uint32_t prefix, uint32_t length)
{
    uint32_t answer[2];
    uint32_t number
        = kop_withdraw(table, KOP_TABLE_WORDS(ROUTES), cache, cache_words, &tallies, prefix, length, answer);
    if (number != KOP_ROUTE_NOT_HELD) /* a daemon that withdraws twice is no reason to stop */
        need(number, "withdraw");
    printf("withdraw ");
    print_address(prefix);
    if (number == KOP_ROUTE_NOT_HELD)
        printf("/%u: not held\n", length);
    else
        printf("/%u: %u entries removed, %u changed\n", length, answer[KOP_REMOVED], answer[KOP_CHANGED]);
}

static void look_up(uint32_t packet)
{
    uint32_t answer[5];
    need(kop_lookup(table, KOP_TABLE_WORDS(ROUTES), cache, cache_words, &tallies, packet, answer), "lookup");
    printf("packet to ");
    print_address(packet);
    if (answer[KOP_KIND] == KOP_HIT) {
        printf(": hop %u, from the cache\n", answer[KOP_HOP]);
    } else if (answer[KOP_KIND] == KOP_MISS) {
        printf(": hop %u, now cached for ", answer[KOP_HOP]);
        print_address(answer[KOP_STORED_ADDRESS]);
        printf("/%u\n", answer[KOP_STORED_LENGTH]);
    } else {
        printf(": dropped\n");
    }
}

int main(void)
{
    set_up(8192);
    announce(address(10, 0, 0, 0), 8, 1);
    announce(address(10, 9, 0, 0), 16, 2);
    look_up(address(10, 1, 2, 3)); /* caches 10.0.0.0/13, which does not hide 10.9.0.0/16 */
    look_up(address(10, 0, 0, 1));
    look_up(address(10, 9, 1, 1));
    look_up(address(11, 0, 0, 1));
    announce(address(10, 1, 0, 0), 16, 3); /* strictly inside what is cached, which leaves */
    look_up(address(10, 1, 2, 3));
    withdraw(address(10, 9, 0, 0), 16);
    look_up(address(10, 9, 1, 1));
    withdraw(address(10, 9, 0, 0), 16);

    printf("hits %u, misses %u, drops %u, evicted %u, removed %u, held %u\n", tallies.hits, tallies.misses,
           tallies.drops, tallies.evicted, tallies.removed, kop_held(&tallies));
    uint32_t sound = kop_check(table, KOP_TABLE_WORDS(ROUTES), cache, cache_words);
    printf("the stores are %s\n", sound ? "sound" : "NOT sound");
    free(cache);
    return sound ? 0 : 1;
}
