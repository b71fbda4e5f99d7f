/*
 * The same structures and steps as the proved library, written by hand in C for speed: what the library's times are
 * held against. Nothing of it is proved, and its calls trust their stores; only the checks take any content.
 *
 * Each call is that of koprzywist.h with the same name, and after the same calls from set-up both leave the same words.
 */
#ifndef TWIN_H
#define TWIN_H

#include "koprzywist.h"

uint32_t twin_entries_for(uint64_t bytes, uint32_t *entries);
uint32_t twin_table_setup(uint32_t *table, size_t table_words, uint32_t limit);
uint32_t twin_cache_setup(uint32_t *cache, size_t cache_words, uint32_t limit);
uint32_t twin_lookup(const uint32_t *table, size_t table_words, uint32_t *cache, size_t cache_words,
                     struct kop_tallies *tallies, uint32_t address, uint32_t answer[5]);
uint32_t twin_announce(uint32_t *table, size_t table_words, uint32_t *cache, size_t cache_words,
                       struct kop_tallies *tallies, uint32_t address, uint32_t length, uint32_t hop,
                       uint32_t answer[2]);
uint32_t twin_withdraw(uint32_t *table, size_t table_words, uint32_t *cache, size_t cache_words,
                       struct kop_tallies *tallies, uint32_t address, uint32_t length, uint32_t answer[2]);
uint32_t twin_table_check(const uint32_t *table, size_t table_words);
uint32_t twin_check(const uint32_t *table, size_t table_words, const uint32_t *cache, size_t cache_words);
void twin_tallies_since(const struct kop_tallies *now, const struct kop_tallies *then, struct kop_tallies *difference);
uint32_t twin_held(const struct kop_tallies *tallies);

#endif
