/*
 * Koprzywist: an IPv4 route table, and in front of it a bounded cache of prefixes.
 *
 * Two stores. The table store holds routes: a prefix and the hop that packets to it leave by. The cache store holds
 * entries: prefixes that were worked out from the table so that none hides a longer route, and no two overlap. A lookup
 * asks the cache first. It answers a hit from the cache alone; on a miss it takes the longest match (RFC 4632) from the
 * table and stores the shortest prefix that answers alike. An update changes the table and puts the cache right.
 *
 * Memory. The caller owns all of it: two stores of 32-bit words, one record of tallies, and the words of each answer.
 * Nothing is allocated, nothing is kept between calls, no lock is taken and no other memory is written. A store may be
 * larger than its need; words past the need are never written.
 *
 * Pointers are never null and are aligned to their type. A store of no words may be lent by any aligned pointer. What
 * one argument of a call leads to, no other argument of that call leads to: `difference` is not `now`, and an answer
 * does not lie in a store.
 *
 * Threads. A pair of stores and its tallies are used by one thread at a time, a lookup included: it changes the order
 * of use. Calls on different stores do not meet. A caller who shares a pair holds a lock around each call.
 *
 * Addresses are numbers in the machine's own byte order: 10.0.0.1 is 0x0a000001. Bits of an address past the length of
 * its prefix are cleared before any other use.
 *
 * What is promised of which stores. Set-up makes sound stores, and every later call on the pair keeps them sound;
 * kop_check says exactly which pairs are sound, and docs/SOUND.md says it in words. A table set up again under a cache
 * that holds entries makes the pair unsound until the cache is set up again too. On unsound stores (memory that
 * something else wrote to, or that is too short) every call still ends, and writes only to the stores, tallies and
 * answer that it was lent; its answer and what the lent words then hold are open, but for refusals 1 and 2.
 *
 * What a call returns is 0, or the number of a refusal:
 *
 *   0  done
 *   1  a length is above 32
 *   2  a hop is 0 or above 65,535
 *   3  a new prefix, and the table holds its limit of routes
 *   4  the route to withdraw is not held
 *   5  a memory figure is below 4,128 bytes
 *   6  a memory figure is above 33,558,559 bytes
 *   7  a store has fewer words than its limit needs
 *   8  a limit is 0 or above 1,048,576
 *   9  the stores are not sound (never given on sound stores, and not promised on others)
 *
 * A refused call writes 0 to every word of its answer. A call refused with 1 to 8 changes neither store nor tallies;
 * for 3 and 4 that is promised of sound stores.
 */
#ifndef KOPRZYWIST_H
#define KOPRZYWIST_H

#include <stddef.h>
#include <stdint.h>

#ifdef __cplusplus
extern "C" {
#endif

/* The largest limit of either store. The smallest is 1. */
#define KOP_LIMIT_MAX 1048576u

/* Words that a table store needs for a limit of routes, and a cache store for a limit of entries. */
#define KOP_TABLE_WORDS(limit) ((size_t)1024 + (size_t)16 * (limit))
#define KOP_CACHE_WORDS(limit) ((size_t)1024 + (size_t)8 * (limit))

/* The smallest and the largest memory figure that kop_entries_for accepts, in bytes. */
#define KOP_BYTES_MIN UINT64_C(4128)
#define KOP_BYTES_MAX UINT64_C(33558559)

#define KOP_LENGTH_MAX 32u
#define KOP_HOP_MAX 65535u

/* What a call returns: the numbers above, by name. */
enum {
    KOP_DONE = 0,
    KOP_LENGTH_ABOVE_32 = 1,
    KOP_HOP_OUT_OF_RANGE = 2,
    KOP_TABLE_FULL = 3,
    KOP_ROUTE_NOT_HELD = 4,
    KOP_BYTES_TOO_FEW = 5,
    KOP_BYTES_TOO_MANY = 6,
    KOP_STORE_TOO_SHORT = 7,
    KOP_LIMIT_OUT_OF_RANGE = 8,
    KOP_STORE_UNSOUND = 9
};

/* answer[0] of a lookup. */
enum { KOP_HIT = 0, KOP_MISS = 1, KOP_DROP = 2 };

/* The words of a lookup's answer. */
enum { KOP_KIND = 0, KOP_HOP = 1, KOP_STORED_ADDRESS = 2, KOP_STORED_LENGTH = 3, KOP_NODES_EXAMINED = 4 };

/* The words of an update's answer. */
enum { KOP_REMOVED = 0, KOP_CHANGED = 1 };

/*
 * What the calls on one pair of stores have done so far. The caller keeps it and sets it to zero when both stores are
 * set up; lookups and updates add to it. Each number wraps at 2^32 as Counter32 of RFC 2578 does.
 */
struct kop_tallies {
    uint32_t hits;    /* lookups that a cached prefix answered */
    uint32_t misses;  /* lookups that the table answered; each stored one entry */
    uint32_t drops;   /* lookups that no route matched */
    uint32_t evicted; /* entries that left a full cache for a new one */
    uint32_t removed; /* entries that an update removed */
};

/*
 * Says how many entries a cache of a memory figure has: (bytes - 4,096) / 32, rounded down.
 *
 * A figure out of range is refused, never bent to a legal one. Constant time.
 *
 * bytes    the memory figure, KOP_BYTES_MIN to KOP_BYTES_MAX
 * entries  receives the limit for kop_cache_setup, 1 to KOP_LIMIT_MAX; 0 when refused
 *
 * Returns 0; 5 if bytes is below 4,128; 6 if it is above 33,558,559.
 */
uint32_t kop_entries_for(uint64_t bytes, uint32_t *entries);

/*
 * Makes a table store that holds no routes, whatever its words were.
 *
 * Set the cache up too, unless it holds no entries. Constant time.
 *
 * table        the store
 * table_words  its size in words, at least KOP_TABLE_WORDS(limit)
 * limit        the most routes it will hold, 1 to KOP_LIMIT_MAX
 *
 * Returns 0; 8 if limit is out of range; 7 if the store is too short for it.
 */
uint32_t kop_table_setup(uint32_t *table, size_t table_words, uint32_t limit);

/*
 * Makes a cache store that holds no entries, whatever its words were. Constant time.
 *
 * cache        the store
 * cache_words  its size in words, at least KOP_CACHE_WORDS(limit)
 * limit        the most entries it will hold, 1 to KOP_LIMIT_MAX
 *
 * Returns 0; 8 if limit is out of range; 7 if the store is too short for it.
 */
uint32_t kop_cache_setup(uint32_t *cache, size_t cache_words, uint32_t limit);

/*
 * Finds the hop for an address: from the cache, or from the table while storing an entry for the next packet.
 *
 * A miss stores the shortest prefix that contains the address, is no shorter than its match, contains no longer route
 * and overlaps no entry; if the cache is full, the least recently used entry leaves. A hit makes its entry the most
 * recently used. A drop stores nothing. A hit is one walk of the cache, a drop one more of the table, a miss one more of
 * the cache again; no walk is longer than 33 nodes, whatever the number of routes and entries.
 *
 * table, table_words  the table store and its size in words; read only
 * cache, cache_words  the cache store and its size in words
 * tallies             one is added to hits, misses or drops, and to evicted when an entry left
 * address             the address to look up
 * answer              receives five words:
 *                       [0] KOP_HIT, KOP_MISS or KOP_DROP
 *                       [1] the hop, 1 to 65,535; 0 for a drop
 *                       [2] the address of the stored prefix; 0 for a hit or drop
 *                       [3] its length; 0 for a hit or drop
 *                       [4] nodes of the table examined, at most 33; 0 for a hit or an empty table
 *
 * Returns 0; on unsound stores perhaps 9.
 */
uint32_t kop_lookup(const uint32_t *table, size_t table_words, uint32_t *cache, size_t cache_words,
                    struct kop_tallies *tallies, uint32_t address, uint32_t answer[5]);

/*
 * Adds a route, or gives a route that is held another hop, and puts the cache right.
 *
 * Entries that now hold a route strictly inside leave; every other entry has the hop of its longest match. The order of
 * use stays. Replacing a hop is done in a full table too. The table costs one descent of at most 33 nodes; the cache
 * costs a look at every entry held, and a descent of the table for each that overlaps the prefix.
 *
 * table, table_words  the table store and its size in words
 * cache, cache_words  the cache store and its size in words
 * tallies             the entries removed are added to removed
 * address, length     the prefix, length 0 to 32
 * hop                 1 to 65,535
 * answer              receives two words: [0] entries removed, [1] entries kept whose hop differs from before
 *
 * Returns 0; 1 if length is above 32; 2 if hop is out of range; 3 if the prefix is new and the table full; they are
 * checked in this order. On unsound stores, after 1 and 2, perhaps 3 or 9.
 */
uint32_t kop_announce(uint32_t *table, size_t table_words, uint32_t *cache, size_t cache_words,
                      struct kop_tallies *tallies, uint32_t address, uint32_t length, uint32_t hop,
                      uint32_t answer[2]);

/*
 * Removes a route and puts the cache right.
 *
 * The entry with exactly this prefix leaves, as do entries that no route covers any more; every other entry has the hop
 * of its longest match. The order of use stays, and the room is used again. Cost as for kop_announce.
 *
 * table, table_words  the table store and its size in words
 * cache, cache_words  the cache store and its size in words
 * tallies             the entries removed are added to removed
 * address, length     the prefix, length 0 to 32
 * answer              receives two words: [0] entries removed, [1] entries kept whose hop differs from before
 *
 * Returns 0; 1 if length is above 32; 4 if the route is not held; they are checked in this order. On unsound stores,
 * after 1, perhaps 4 or 9.
 */
uint32_t kop_withdraw(uint32_t *table, size_t table_words, uint32_t *cache, size_t cache_words,
                      struct kop_tallies *tallies, uint32_t address, uint32_t length, uint32_t answer[2]);

/*
 * Says whether a table store is sound. Writes nothing. Reads every node in use once.
 *
 * table, table_words  the table store and its size in words, any content
 *
 * Returns 1 if it is sound, else 0.
 */
uint32_t kop_table_check(const uint32_t *table, size_t table_words);

/*
 * Says whether a pair of stores is sound: the table, the cache, and every entry against the table. Writes nothing.
 * Reads every node and entry in use, and costs a descent of the table for every entry held.
 *
 * table, table_words  the table store and its size in words, any content
 * cache, cache_words  the cache store and its size in words, any content
 *
 * Returns 1 if the pair is sound, else 0.
 */
uint32_t kop_check(const uint32_t *table, size_t table_words, const uint32_t *cache, size_t cache_words);

/*
 * Takes the difference of two readings of one record, number by number, modulo 2^32. Constant time.
 *
 * now         the later reading
 * then        the earlier reading
 * difference  receives what was added between them; neither of the other two
 */
void kop_tallies_since(const struct kop_tallies *now, const struct kop_tallies *then, struct kop_tallies *difference);

/*
 * Says how many entries the cache holds: misses - evicted - removed, modulo 2^32. Constant time.
 *
 * tallies  a record that was zero when both stores were set up, and that every call on them since has been lent
 *
 * Returns that number.
 */
uint32_t kop_held(const struct kop_tallies *tallies);

#ifdef __cplusplus
}
#endif

#endif
