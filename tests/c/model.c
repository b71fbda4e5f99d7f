#include "model.h"

#include <stdlib.h>
#include <string.h>

/* Prefixes */

static uint32_t mask_of(uint32_t length)
{
    return length == 0 ? 0 : UINT32_MAX << (32 - length);
}

struct model_prefix model_prefix_of(uint32_t address, uint32_t length)
{
    return (struct model_prefix){ address & mask_of(length), length };
}

bool model_contains(struct model_prefix prefix, uint32_t address)
{
    return ((prefix.address ^ address) & mask_of(prefix.length)) == 0;
}

bool model_lies_inside(struct model_prefix inner, struct model_prefix outer)
{
    return outer.length <= inner.length && model_contains(outer, inner.address);
}

static bool strictly_inside(struct model_prefix inner, struct model_prefix outer)
{
    return inner.length > outer.length && model_lies_inside(inner, outer);
}

static bool overlap(struct model_prefix one, struct model_prefix other)
{
    return model_lies_inside(one, other) || model_lies_inside(other, one);
}

static bool same(struct model_prefix one, struct model_prefix other)
{
    return one.address == other.address && one.length == other.length;
}

static uint32_t bit_of(uint32_t address, uint32_t number)
{
    return (address >> (31 - number)) & 1;
}

uint32_t model_common(uint32_t address, struct model_prefix prefix)
{
    uint32_t different = (address ^ prefix.address) & mask_of(prefix.length);
    return different == 0 ? prefix.length : (uint32_t)__builtin_clz(different);
}

/* The model's own memory */

struct model model_make(uint32_t route_limit, uint32_t entry_limit)
{
    struct model model = { .route_limit = route_limit, .entry_limit = entry_limit };
    model.routes = malloc(route_limit * sizeof *model.routes);
    model.entries = malloc(entry_limit * sizeof *model.entries);
    if (model.routes == NULL || model.entries == NULL)
        abort();
    return model;
}

void model_free(struct model *model)
{
    free(model->routes);
    free(model->entries);
}

/* Sizes and set-up */

uint32_t model_entries_for(uint64_t bytes, uint32_t *entries)
{
    *entries = 0;
    if (bytes < 4128)
        return 5;
    if (bytes > 33558559)
        return 6;
    *entries = (uint32_t)((bytes - 4096) / 32);
    return 0;
}

uint32_t model_setup(uint64_t words, uint64_t words_for_each, uint32_t limit)
{
    if (limit == 0 || limit > 1048576)
        return 8;
    return words < 1024 + words_for_each * limit ? 7 : 0;
}

/* The lookup */

const struct model_item *model_match(const struct model_item *routes, uint32_t count, struct model_prefix prefix)
{
    const struct model_item *longest = NULL;
    for (uint32_t i = 0; i < count; i++)
        if (model_lies_inside(prefix, routes[i].prefix)
            && (longest == NULL || routes[i].prefix.length > longest->prefix.length))
            longest = &routes[i];
    return longest;
}

static uint32_t larger(uint32_t one, uint32_t other)
{
    return one > other ? one : other;
}

/* The length that a miss stores: no shorter than the match, past every other route and every entry. */
static uint32_t stored_length(const struct model *model, uint32_t address, uint32_t match_length)
{
    uint32_t length = match_length;
    for (uint32_t i = 0; i < model->route_count; i++)
        if (!model_contains(model->routes[i].prefix, address))
            length = larger(length, 1 + model_common(address, model->routes[i].prefix));
    for (uint32_t i = 0; i < model->entry_count; i++)
        length = larger(length, 1 + model_common(address, model->entries[i].prefix));
    return length;
}

/* Moves the entries before one place down by one and puts an entry first. */
static void put_first(struct model *model, uint32_t place, struct model_item entry)
{
    memmove(model->entries + 1, model->entries, place * sizeof *model->entries);
    model->entries[0] = entry;
}

uint32_t model_lookup(struct model *model, uint32_t address, uint32_t answer[5])
{
    memset(answer, 0, 5 * sizeof *answer);
    for (uint32_t i = 0; i < model->entry_count; i++)
        if (model_contains(model->entries[i].prefix, address)) {
            answer[1] = model->entries[i].hop;
            put_first(model, i, model->entries[i]);
            model->tallies.hits++;
            return 0;
        }
    answer[4] = model_nodes_examined(model, address);
    const struct model_item *match = model_match(model->routes, model->route_count, model_prefix_of(address, 32));
    if (match == NULL) {
        answer[0] = 2;
        model->tallies.drops++;
        return 0;
    }
    struct model_item stored
        = { model_prefix_of(address, stored_length(model, address, match->prefix.length)), match->hop };
    if (model->entry_count == model->entry_limit) {
        model->entry_count--;
        model->tallies.evicted++;
    }
    put_first(model, model->entry_count++, stored);
    model->tallies.misses++;
    answer[0] = 1;
    answer[1] = stored.hop;
    answer[2] = stored.prefix.address;
    answer[3] = stored.prefix.length;
    return 0;
}

/* Updates */

static uint32_t place_of_route(const struct model *model, struct model_prefix prefix)
{
    uint32_t i = 0;
    while (i < model->route_count && !same(model->routes[i].prefix, prefix))
        i++;
    return i;
}

static bool holds_a_route(const struct model *model, struct model_prefix prefix)
{
    for (uint32_t i = 0; i < model->route_count; i++)
        if (strictly_inside(model->routes[i].prefix, prefix))
            return true;
    return false;
}

/* Every entry is judged by the whole new table, in the order of use. `withdrawn` is a prefix, or NULL. */
static void judge_entries(struct model *model, const struct model_prefix *withdrawn, uint32_t answer[2])
{
    uint32_t kept = 0;
    for (uint32_t i = 0; i < model->entry_count; i++) {
        struct model_item entry = model->entries[i];
        const struct model_item *match = model_match(model->routes, model->route_count, entry.prefix);
        if (match == NULL || holds_a_route(model, entry.prefix)
            || (withdrawn != NULL && same(entry.prefix, *withdrawn))) {
            answer[0]++;
            continue;
        }
        if (entry.hop != match->hop)
            answer[1]++;
        entry.hop = match->hop;
        model->entries[kept++] = entry;
    }
    model->entry_count = kept;
    model->tallies.removed += answer[0];
}

uint32_t model_announce(struct model *model, uint32_t address, uint32_t length, uint32_t hop, uint32_t answer[2])
{
    answer[0] = answer[1] = 0;
    if (length > 32)
        return 1;
    if (hop == 0 || hop > 65535)
        return 2;
    struct model_prefix prefix = model_prefix_of(address, length);
    uint32_t place = place_of_route(model, prefix);
    if (place == model->route_count) {
        if (model->route_count == model->route_limit)
            return 3;
        model->route_count++;
    }
    model->routes[place] = (struct model_item){ prefix, hop };
    judge_entries(model, NULL, answer);
    return 0;
}

uint32_t model_withdraw(struct model *model, uint32_t address, uint32_t length, uint32_t answer[2])
{
    answer[0] = answer[1] = 0;
    if (length > 32)
        return 1;
    struct model_prefix prefix = model_prefix_of(address, length);
    uint32_t place = place_of_route(model, prefix);
    if (place == model->route_count)
        return 4;
    model->routes[place] = model->routes[--model->route_count];
    judge_entries(model, &prefix, answer);
    return 0;
}

/* Nodes examined */

/*
 * One scan. The first n bits of X are a node if they are a route, or if one route goes on from them with X's next bit
 * and another with the other bit. A node that contains X has exactly one examined node below it if any route goes on
 * from it with X's next bit, else none. The root is examined in any case.
 */
uint32_t model_nodes_examined(const struct model *model, uint32_t address)
{
    bool is_route[33] = { false }, leaves_here[33] = { false };
    uint32_t deepest = 0; /* the largest Common(X, R) */
    for (uint32_t i = 0; i < model->route_count; i++) {
        struct model_prefix route = model->routes[i].prefix;
        uint32_t common = model_common(address, route);
        deepest = larger(deepest, common);
        if (common == route.length)
            is_route[common] = true;
        else
            leaves_here[common] = true;
    }
    if (model->route_count == 0)
        return 0;
    uint32_t examined = 1;
    for (uint32_t n = 0; n < deepest; n++)
        if (is_route[n] || leaves_here[n])
            examined++;
    return examined;
}

static int by_length_then_address(const void *left, const void *right)
{
    const struct model_prefix *one = left, *other = right;
    if (one->length != other->length)
        return one->length < other->length ? -1 : 1;
    return (one->address > other->address) - (one->address < other->address);
}

/* The nodes of the table, the shortest first, each once. The caller frees them. */
static struct model_prefix *nodes_of(const struct model *model, size_t *count)
{
    size_t routes = model->route_count, made = 0;
    struct model_prefix *nodes = malloc((routes + routes * routes / 2 + 1) * sizeof *nodes);
    if (nodes == NULL)
        abort();
    for (size_t i = 0; i < routes; i++) {
        struct model_prefix one = model->routes[i].prefix;
        nodes[made++] = one;
        for (size_t j = 0; j < i; j++) {
            struct model_prefix other = model->routes[j].prefix;
            if (!overlap(one, other))
                nodes[made++] = model_prefix_of(one.address, model_common(one.address, other));
        }
    }
    qsort(nodes, made, sizeof *nodes, by_length_then_address);
    size_t kept = 0;
    for (size_t i = 0; i < made; i++)
        if (kept == 0 || !same(nodes[kept - 1], nodes[i]))
            nodes[kept++] = nodes[i];
    *count = kept;
    return nodes;
}

uint32_t model_nodes_by_definition(const struct model *model, uint32_t address)
{
    size_t count;
    struct model_prefix *nodes = nodes_of(model, &count);
    uint32_t examined = count > 0 ? 1 : 0; /* the root, the shortest node */
    for (size_t i = 1; i < count; i++) {
        size_t parent = i; /* the longest node that this one lies strictly inside: the last such before it */
        do
            parent--;
        while (!strictly_inside(nodes[i], nodes[parent]));
        if (model_contains(nodes[parent], address)
            && bit_of(nodes[i].address, nodes[parent].length) == bit_of(address, nodes[parent].length))
            examined++;
    }
    free(nodes);
    return examined;
}

/* Legal states */

static bool legal_item(struct model_item item)
{
    return item.prefix.length <= 32 && item.hop >= 1 && item.hop <= 65535;
}

static bool legal_entry(const struct model *model, uint32_t place)
{
    struct model_item entry = model->entries[place];
    if (!legal_item(entry))
        return false;
    for (uint32_t i = 0; i < place; i++)
        if (overlap(entry.prefix, model->entries[i].prefix))
            return false;
    const struct model_item *match = model_match(model->routes, model->route_count, entry.prefix);
    return match != NULL && match->hop == entry.hop && !holds_a_route(model, entry.prefix);
}

bool model_legal(const struct model *model)
{
    if (model->route_count > model->route_limit || model->entry_count > model->entry_limit)
        return false;
    for (uint32_t i = 0; i < model->route_count; i++)
        if (!legal_item(model->routes[i]) || place_of_route(model, model->routes[i].prefix) != i)
            return false;
    for (uint32_t i = 0; i < model->entry_count; i++)
        if (!legal_entry(model, i))
            return false;
    return true;
}
