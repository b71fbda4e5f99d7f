#include "routes.h"

#include <math.h>
#include <stdio.h>
#include <stdlib.h>
#include <string.h>

/* Routes of each length in the table that route-views saw on 13 May 2014. */
static const uint32_t lengths_of_2014[33] = {
    [8] = 16,     [9] = 12,     [10] = 30,    [11] = 90,    [12] = 259,   [13] = 487,    [14] = 974,
    [15] = 1726,  [16] = 13017, [17] = 7050,  [18] = 11917, [19] = 24936, [20] = 35828,  [21] = 37624,
    [22] = 57782, [23] = 47385, [24] = 270023, [25] = 918,  [26] = 1060,  [27] = 537,    [28] = 138,
    [29] = 292,   [30] = 331,   [31] = 20,    [32] = 169,
};

/* SplitMix64 of Steele, Lea and Flood (2014). */
uint64_t next_random(void)
{
    static uint64_t state = 2014;
    uint64_t mixed = state += UINT64_C(0x9e3779b97f4a7c15);
    mixed = (mixed ^ mixed >> 30) * UINT64_C(0xbf58476d1ce4e5b9);
    mixed = (mixed ^ mixed >> 27) * UINT64_C(0x94d049bb133111eb);
    return mixed ^ mixed >> 31;
}

uint32_t random_below(uint32_t end)
{
    return (uint32_t)((next_random() >> 32) * end >> 32);
}

void *need_memory(size_t bytes)
{
    void *memory = malloc(bytes);
    if (memory == NULL) {
        fprintf(stderr, "bench: no memory\n");
        exit(1);
    }
    return memory;
}

static uint32_t mask_of(uint32_t length)
{
    return length == 0 ? 0 : UINT32_MAX << (32 - length);
}

static int by_address_then_length(const void *left, const void *right)
{
    const struct route *one = left, *other = right;
    if (one->address != other->address)
        return one->address < other->address ? -1 : 1;
    return (one->length > other->length) - (one->length < other->length);
}

/* Each prefix once, in the order of addresses. */
static void sort_routes(struct routes *routes)
{
    qsort(routes->list, routes->count, sizeof *routes->list, by_address_then_length);
    uint32_t kept = 0;
    for (uint32_t i = 0; i < routes->count; i++)
        if (kept == 0 || by_address_then_length(&routes->list[kept - 1], &routes->list[i]) != 0)
            routes->list[kept++] = routes->list[i];
    routes->count = kept;
}

static void shuffle(struct routes *routes)
{
    for (uint32_t i = routes->count; i > 1; i--) {
        uint32_t other = random_below(i);
        struct route kept = routes->list[i - 1];
        routes->list[i - 1] = routes->list[other];
        routes->list[other] = kept;
    }
}

struct routes routes_from(const char *file)
{
    FILE *lines = fopen(file, "r");
    char line[128];
    uint32_t room = 0;
    struct routes routes = { NULL, 0 };
    while (lines != NULL && fgets(line, sizeof line, lines) != NULL) {
        unsigned a, b, c, d, length, number;
        if (sscanf(line, "%u.%u.%u.%u/%u %u", &a, &b, &c, &d, &length, &number) != 6 || length > 32)
            continue;
        if (routes.count == room) {
            room = room == 0 ? 1 << 16 : 2 * room;
            routes.list = realloc(routes.list, room * sizeof *routes.list);
            if (routes.list == NULL)
                break;
        }
        uint32_t address = (uint32_t)a << 24 | (uint32_t)b << 16 | (uint32_t)c << 8 | (uint32_t)d;
        routes.list[routes.count++] = (struct route){ address & mask_of(length), length, 1 + number % 65535 };
    }
    if (routes.list == NULL) {
        fprintf(stderr, "bench: no routes in %s\n", file);
        exit(1);
    }
    fclose(lines);
    sort_routes(&routes);
    shuffle(&routes);
    return routes;
}

/* Half of the routes lie inside a shorter one, as the more specific routes of a real table do. */
struct routes routes_made_up(void)
{
    uint32_t total = 0;
    for (uint32_t length = 0; length <= 32; length++)
        total += lengths_of_2014[length];
    struct routes routes = { need_memory(total * sizeof(struct route)), 0 };
    for (uint32_t length = 0; length <= 32; length++) {
        uint32_t shorter = routes.count;
        for (uint32_t i = 0; i < lengths_of_2014[length]; i++) {
            uint32_t address = (1 + random_below(223)) << 24 | (uint32_t)(next_random() >> 40);
            if (shorter > 0 && random_below(2) == 0) {
                struct route outer = routes.list[random_below(shorter)];
                address = outer.address | (address & ~mask_of(outer.length));
            }
            routes.list[routes.count++] = (struct route){ address & mask_of(length), length, 1 + random_below(65535) };
        }
    }
    sort_routes(&routes);
    shuffle(&routes);
    return routes;
}

static uint32_t address_in(struct route route)
{
    return route.address | ((uint32_t)(next_random() >> 32) & ~mask_of(route.length));
}

struct trace zipf_trace(const struct routes *routes, uint32_t count, double exponent)
{
    double *up_to = need_memory(routes->count * sizeof *up_to), sum = 0;
    for (uint32_t i = 0; i < routes->count; i++)
        up_to[i] = sum += pow(i + 1, -exponent);
    struct trace trace = { need_memory(count * sizeof(uint32_t)), count };
    for (uint32_t i = 0; i < count; i++) {
        double drawn = (double)(next_random() >> 11) / 9007199254740992.0 * sum;
        uint32_t low = 0, high = routes->count - 1;
        while (low < high) {
            uint32_t middle = low + (high - low) / 2;
            if (up_to[middle] <= drawn)
                low = middle + 1;
            else
                high = middle;
        }
        trace.addresses[i] = address_in(routes->list[low]);
    }
    free(up_to);
    return trace;
}

struct trace distinct_trace(const struct routes *routes, uint32_t most)
{
    struct routes sorted = { need_memory(routes->count * sizeof(struct route)), routes->count }, leaves = sorted;
    memcpy(sorted.list, routes->list, routes->count * sizeof(struct route));
    sort_routes(&sorted);
    leaves.count = 0;
    for (uint32_t i = 0; i < sorted.count; i++) {
        struct route route = sorted.list[i];
        if (i + 1 == sorted.count || ((sorted.list[i + 1].address ^ route.address) & mask_of(route.length)) != 0)
            leaves.list[leaves.count++] = route; /* never past the one that is read */
    }
    shuffle(&leaves);
    struct trace trace = { need_memory(most * sizeof(uint32_t)), leaves.count < most ? leaves.count : most };
    for (uint32_t i = 0; i < trace.count; i++)
        trace.addresses[i] = address_in(leaves.list[i]);
    free(sorted.list);
    return trace;
}
