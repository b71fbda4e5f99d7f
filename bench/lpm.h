/*
 * A third column, where the machine has it: DPDK's rte_lpm, a flat table without a cache in front of it, which a router
 * could use instead. Built with WITH_RTE_LPM; without, nothing of it is called.
 */
#ifndef LPM_H
#define LPM_H

#include "routes.h"

#define LPM_NAME "rte_lpm"

#ifdef WITH_RTE_LPM
#define LPM_IS_THERE true
#else
#define LPM_IS_THERE false
#endif

void lpm_open(uint32_t routes);
void lpm_announce_all(const struct route *routes, uint32_t count);
void lpm_withdraw_all(const struct route *routes, uint32_t count);
void lpm_look_up_all(const uint32_t *addresses, uint32_t count);

#endif
