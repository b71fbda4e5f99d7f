/*
 * What the library is held against: the rules of a route table and its cache over plain arrays and linear scans. It is
 * written from the rules alone and shares nothing with the library but the record of tallies and the answers' shape.
 */
#ifndef MODEL_H
#define MODEL_H

#include "koprzywist.h"

#include <stdbool.h>

struct model_prefix {
    uint32_t address; /* bits past the length are 0 */
    uint32_t length;
};

struct model_item { /* a route or an entry */
    struct model_prefix prefix;
    uint32_t hop;
};

struct model {
    struct model_item *routes; /* in no order */
    uint32_t route_count, route_limit;
    struct model_item *entries; /* the most recently used first */
    uint32_t entry_count, entry_limit;
    struct kop_tallies tallies;
};

/* Prefixes, as the rules have them. */
struct model_prefix model_prefix_of(uint32_t address, uint32_t length);
bool model_contains(struct model_prefix prefix, uint32_t address);
bool model_lies_inside(struct model_prefix inner, struct model_prefix outer);
uint32_t model_common(uint32_t address, struct model_prefix prefix);

/* A model with room for its limits, and its end. */
struct model model_make(uint32_t route_limit, uint32_t entry_limit);
void model_free(struct model *model);

/* The calls, with the answers and numbers that the library's have. Answers are arrays as in koprzywist.h. */
uint32_t model_entries_for(uint64_t bytes, uint32_t *entries);
uint32_t model_setup(uint64_t words, uint64_t words_for_each, uint32_t limit);
uint32_t model_lookup(struct model *model, uint32_t address, uint32_t answer[5]);
uint32_t model_announce(struct model *model, uint32_t address, uint32_t length, uint32_t hop, uint32_t answer[2]);
uint32_t model_withdraw(struct model *model, uint32_t address, uint32_t length, uint32_t answer[2]);

/* The longest of some routes that contains a whole prefix, or NULL. */
const struct model_item *model_match(const struct model_item *routes, uint32_t count, struct model_prefix prefix);

/*
 * Nodes examined for an address, twice: by one scan of the routes, and by building the set of nodes as it is defined,
 * which is slow (count^2 nodes, sorted).
 */
uint32_t model_nodes_examined(const struct model *model, uint32_t address);
uint32_t model_nodes_by_definition(const struct model *model, uint32_t address);

/* Whether some routes and entries make a legal state within their limits. */
bool model_legal(const struct model *model);

#endif
