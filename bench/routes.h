/*
 * The routes and the traffic that the benchmark runs on.
 */
#ifndef ROUTES_H
#define ROUTES_H

#include <stdbool.h>
#include <stddef.h>
#include <stdint.h>

struct route {
    uint32_t address, length, hop;
};

struct routes {
    struct route *list;
    uint32_t count;
};

struct trace {
    uint32_t *addresses;
    uint32_t count;
};

/* Random numbers, the same in every run. */
uint64_t next_random(void);
uint32_t random_below(uint32_t end);

/* Memory, or the end of the program. */
void *need_memory(size_t bytes);

/* The routes of a file with lines `address/length number`; in a random order. Ends the program where it has none. */
struct routes routes_from(const char *file);

/* Nearly as many routes as the table of May 2014 has, of the same lengths, at random addresses. */
struct routes routes_made_up(void);

/*
 * Addresses inside the routes, which are drawn by Zipf's law: the r-th route as often as 1 / r^exponent. The order of the
 * list is the order of rank.
 */
struct trace zipf_trace(const struct routes *routes, uint32_t count, double exponent);

/* One address in each of some routes that no other route lies inside, so that no two of them share an entry. */
struct trace distinct_trace(const struct routes *routes, uint32_t most);

#endif
