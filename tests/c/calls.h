/*
 * Random calls that matter: prefixes that nest and meet in a few bits, addresses inside what is cached, hops that repeat,
 * and arguments that are to be refused.
 */
#ifndef CALLS_H
#define CALLS_H

#include "stores.h"

struct dice {
    uint64_t state;
};

uint64_t roll(struct dice *dice);
uint32_t roll_below(struct dice *dice, uint32_t end);
bool roll_percent(struct dice *dice, uint32_t percent);
uint32_t roll_limit(struct dice *dice, uint32_t largest); /* 1 to largest, small ones as often as large ones */

/* The few bits in which the prefixes of a run differ. */
struct world {
    uint32_t base, mask;
};

struct world roll_world(struct dice *dice, uint32_t route_limit);
uint32_t roll_address(struct dice *dice, struct world world);

enum call_kind { CALL_LOOKUP, CALL_ANNOUNCE, CALL_WITHDRAW };

struct call {
    enum call_kind kind;
    uint32_t address, length, hop;
};

/* How many calls of a hundred announce, and how many withdraw; the others look up. */
struct mix {
    uint32_t announce, withdraw;
};

struct mix roll_mix(struct dice *dice);
struct call roll_call(struct dice *dice, struct world world, struct mix mix, const struct model *model);

/* A call's number and the words of its answer: five for a lookup, two for an update. */
struct outcome {
    uint32_t number;
    uint32_t answer[5];
};

uint32_t answer_words(struct call call);
uint32_t call_library(const struct pair *pair, struct kop_tallies *tallies, struct call call, uint32_t *answer);
uint32_t call_model(struct model *model, struct call call, uint32_t *answer);

#endif
