#include "lpm.h"

#ifdef WITH_RTE_LPM

#include <rte_eal.h>
#include <rte_lpm.h>
#include <stdio.h>
#include <stdlib.h>

static struct rte_lpm *table;
static volatile uint32_t last_hop; /* so that no lookup is left out */

static void fail(const char *what)
{
    fprintf(stderr, "bench: rte_lpm: %s\n", what);
    exit(1);
}

/* A table of 2^24 entries of four bytes, and 256 for each /24 that has longer routes; plain pages, no devices. */
void lpm_open(uint32_t routes)
{
    static char *options[] = { "bench",    "--no-huge", "-m",        "256",         "--no-pci",
                               "--no-shconf", "--log-level=1", "--no-telemetry", "-l", "0" };
    struct rte_lpm_config config = { .max_rules = routes + 1, .number_tbl8s = 8192, .flags = 0 };
    if (rte_eal_init((int)(sizeof options / sizeof options[0]), options) < 0)
        fail("no environment");
    table = rte_lpm_create("bench", -1, &config);
    if (table == NULL)
        fail("no table");
}

void lpm_announce_all(const struct route *routes, uint32_t count)
{
    for (uint32_t i = 0; i < count; i++)
        if (routes[i].length != 0
            && rte_lpm_add(table, routes[i].address, (uint8_t)routes[i].length, routes[i].hop) != 0)
            fail("announce");
}

void lpm_withdraw_all(const struct route *routes, uint32_t count)
{
    for (uint32_t i = 0; i < count; i++)
        if (routes[i].length != 0 && rte_lpm_delete(table, routes[i].address, (uint8_t)routes[i].length) != 0)
            fail("withdraw");
}

void lpm_look_up_all(const uint32_t *addresses, uint32_t count)
{
    uint32_t hop = 0, sum = 0;
    for (uint32_t i = 0; i < count; i++) {
        rte_lpm_lookup(table, addresses[i], &hop);
        sum += hop;
    }
    last_hop = sum;
}

#else

void lpm_open(uint32_t routes)
{
    (void)routes;
}

void lpm_announce_all(const struct route *routes, uint32_t count)
{
    (void)routes, (void)count;
}

void lpm_withdraw_all(const struct route *routes, uint32_t count)
{
    (void)routes, (void)count;
}

void lpm_look_up_all(const uint32_t *addresses, uint32_t count)
{
    (void)addresses, (void)count;
}

#endif
