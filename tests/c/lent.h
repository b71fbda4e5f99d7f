/*
 * Calls on lent words between fences, whatever these words are: each must end, write only to what it was lent, and answer as
 * the rules still bind it to; where the words are sound, as the model does.
 */
#ifndef LENT_H
#define LENT_H

#include "calls.h"
#include "fences.h"

enum {
    LARGEST_TABLE = 12,
    LARGEST_CACHE = 8,
    MOST_TABLE_WORDS = 1024 + 16 * LARGEST_TABLE + 40,
    MOST_CACHE_WORDS = 1024 + 8 * LARGEST_CACHE + 40
};

/* A sound pair to start from, kept beside the fences. */
struct sound {
    uint32_t table[MOST_TABLE_WORDS], cache[MOST_CACHE_WORDS];
    size_t table_words, cache_words;
    struct kop_tallies tallies;
    struct world world;
    struct model model;
};

void make_sound(struct dice *dice, struct sound *sound); /* some calls from set-up */
bool read_as_sound(const uint32_t *table, size_t table_words, const uint32_t *cache, size_t cache_words);

/* The pair between the fences. */
struct lent {
    struct pair pair;
    uint32_t table[MOST_TABLE_WORDS], cache[MOST_CACHE_WORDS]; /* as they were before a call */
};

extern struct lent lent;

void make_fences(void);
void free_fences(void);
void lend_pair(struct dice *dice, const uint32_t *table, size_t table_words, const uint32_t *cache, size_t cache_words);
void keep_words(void); /* to hold the lent words against them later */
bool table_kept(void);
bool cache_kept(void);
void expect_guards(void);
void checks(void); /* both checks of the lent pair are right, and write nothing */
void calls_on_lent(struct dice *dice, const struct sound *sound, uint32_t count);
void set_up_lent(void);

/* Pairs that only calls have touched, checked; and calls on sound pairs that no call had made. */
uint64_t sound_pairs_checked(void);
uint64_t sound_pairs_called(void);

#endif
