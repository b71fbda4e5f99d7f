/*
 * A pair of stores as a caller keeps it, and what its words mean, read from the layout of docs/DESIGN.md by a walk from
 * each root. It shares no step with the library's own check, which looks at one node or slot at a time.
 */
#ifndef STORES_H
#define STORES_H

#include "model.h"

struct pair {
    uint32_t *table, *cache;
    size_t table_words, cache_words;
    struct kop_tallies tallies;
};

/*
 * Reads a table into a model with room for its routes, and a cache for its entries. False where the words make no
 * sound table or no sound ring and trie of entries. The models' limits must not be smaller than the stores'.
 */
bool read_table(const uint32_t *table, size_t words, struct model *read);
bool read_cache(const uint32_t *cache, size_t words, struct model *read);

/* Whether the pair is sound by docs/SOUND.md. `read` is a model to work in, as above. */
bool sound_pair(const uint32_t *table, size_t table_words, const uint32_t *cache, size_t cache_words,
                struct model *read);

/* Whether two models have the same set of routes, and the same entries in the same order. Sorts the routes of both. */
bool same_contents(struct model *one, struct model *other);

#endif
