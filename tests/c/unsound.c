/*
 * Stores that no call has made: single flipped bits in sound stores, words that are likely but wrong, records that have
 * changed places, random words, stores too short. Every call must end, write only to what it was lent, and answer as
 * the rules still bind it to; the check must say exactly which pairs are sound, as a reading of the words by
 * docs/SOUND.md does.
 *
 * Each lent part lies between two pages without access, at the end of its room or at the start of it, and the rest of
 * the room holds guard words. A call that has not ended after some seconds fails the test.
 */
#include "lent.h"

#include <inttypes.h>
#include <stdio.h>
#include <stdlib.h>
#include <string.h>

static uint64_t flips_checked, flips_unsound, likely_checked, random_checked, short_checked;

/* ---- single flipped bits: each of them against the check, some of them with calls */

/* One flipped bit at a time in one store of the pair; those of the reserve that have no meaning, only now and then. */
static void flip_store(struct dice *dice, struct sound *sound, uint32_t *words, size_t count)
{
    for (size_t i = 0; i < count; i++) {
        bool named = i < 4 || i >= 1016;
        for (uint32_t bit = 0; bit < 32; bit++) {
            if (!named && !roll_percent(dice, 1))
                continue;
            words[i] ^= UINT32_C(1) << bit;
            bool sound_still = read_as_sound(sound->table, sound->table_words, sound->cache, sound->cache_words);
            uint32_t verdict = kop_check(sound->table, sound->table_words, sound->cache, sound->cache_words);
            one_more_call();
            expect(verdict == sound_still, sound_still ? "the check denies a pair that a flipped bit left sound"
                                                       : "the check accepts a pair that a flipped bit made unsound");
            flips_checked++;
            flips_unsound += !sound_still;
            if (roll_percent(dice, 6)) {
                lend_pair(dice, sound->table, sound->table_words, sound->cache, sound->cache_words);
                lent.pair.tallies = sound->tallies;
                calls_on_lent(dice, sound, 1 + roll_below(dice, 8));
            }
            words[i] ^= UINT32_C(1) << bit;
        }
    }
}

static void flipped_bits(struct dice *dice)
{
    static struct sound sound;
    make_sound(dice, &sound);
    flip_store(dice, &sound, sound.table, sound.table_words);
    flip_store(dice, &sound, sound.cache, sound.cache_words);
    model_free(&sound.model);
}

/* ---- likely words: numbers from elsewhere in the store, and counts that are made to fit again */

static uint32_t *record(uint32_t *store, uint32_t number)
{
    return store + 1016 + (size_t)8 * number;
}

/* Records of a store that are in use, its header's own among them. */
static uint32_t records_in_use(const uint32_t *store)
{
    return 1 + store[1];
}

static void likely_word(struct dice *dice, uint32_t *store)
{
    uint32_t records = records_in_use(store), field = roll_below(dice, 8);
    uint32_t *word = roll_percent(dice, 85) ? &record(store, roll_below(dice, records))[field] : &store[roll_below(dice, 3)];
    switch (roll_below(dice, 5)) {
    case 0: *word = 0; break;
    case 1: *word += 1; break;
    case 2: *word -= 1; break;
    case 3: *word = record(store, roll_below(dice, records))[field]; break;
    default: *word = roll_below(dice, 2 * records + 2);
    }
}

/* A route becomes a branch or a branch a route, and the count of routes says so. */
static void turn_node(struct dice *dice, uint32_t *table)
{
    if (table[1] == 0)
        return;
    uint32_t *node = record(table, 1 + roll_below(dice, table[1]));
    table[2] += node[2] == 0 ? 1 : UINT32_MAX;
    node[2] = node[2] == 0 ? 2 + roll_below(dice, 3) : 0;
}

static uint32_t renamed(uint32_t number, uint32_t one, uint32_t other)
{
    return number == one ? other : number == other ? one : number;
}

/* A field that names a record by its number times `scale`, with something below that. */
static void rename_field(uint32_t *field, uint32_t scale, uint32_t one, uint32_t other)
{
    *field = renamed(*field / scale, one, other) * scale + *field % scale;
}

/* Two records change places, and all that leads to them follows: a sound store stays sound and holds the same. */
static void swap_records(struct dice *dice, uint32_t *store, const uint32_t scales[8], uint32_t first)
{
    uint32_t records = records_in_use(store);
    if (records <= first)
        return;
    uint32_t one = first + roll_below(dice, records - first), other = first + roll_below(dice, records - first), kept[8];
    for (uint32_t i = 0; i < records; i++)
        for (uint32_t field = 0; field < 8; field++)
            if (scales[field] != 0)
                rename_field(&record(store, i)[field], scales[field], one, other);
    memcpy(kept, record(store, one), sizeof kept);
    memmove(record(store, one), record(store, other), sizeof kept);
    memcpy(record(store, other), kept, sizeof kept);
}

static void swap_some(struct dice *dice, struct sound *sound)
{
    static const uint32_t table_scales[8] = { 0, 0, 0, 1, 1, 2, 0, 0 }, cache_scales[8] = { 0, 0, 1, 1, 2, 2, 2, 128 };
    for (int i = 0; i < 4; i++) {
        swap_records(dice, sound->table, table_scales, 1);
        swap_records(dice, sound->cache, cache_scales, 2); /* slot 1 alone has no branch */
    }
    expect(read_as_sound(sound->table, sound->table_words, sound->cache, sound->cache_words),
           "records that changed places made a pair unsound");
}

static void likely_stores(struct dice *dice)
{
    static struct sound sound, edited;
    make_sound(dice, &sound);
    swap_some(dice, &sound);
    for (int i = 0; i < 60; i++) {
        memcpy(&edited, &sound, sizeof edited);
        for (uint32_t edits = i == 0 ? 0 : 1 + roll_below(dice, 3); edits > 0; edits--)
            if (roll_percent(dice, 20) && edited.table[1] == sound.table[1])
                turn_node(dice, edited.table);
            else if (roll_percent(dice, 50) && edited.table[1] == sound.table[1])
                likely_word(dice, edited.table);
            else if (edited.cache[1] == sound.cache[1])
                likely_word(dice, edited.cache);
        lend_pair(dice, edited.table, edited.table_words, edited.cache, edited.cache_words);
        lent.pair.tallies = edited.tallies;
        checks();
        if (i < 10)
            calls_on_lent(dice, &edited, 8);
        likely_checked++;
    }
    model_free(&sound.model);
}

/* ---- random words: any, small numbers, or a header that fits with random records */

static void random_words(struct dice *dice, uint32_t *words, size_t count)
{
    uint32_t kind = roll_below(dice, 4);
    for (size_t i = 0; i < count; i++) {
        uint32_t any = (uint32_t)roll(dice);
        words[i] = kind == 0 ? any : kind == 1 ? any % 40 : any >> roll_below(dice, 32);
    }
}

static void random_stores(struct dice *dice)
{
    static struct sound sound;
    make_sound(dice, &sound);
    if (roll_percent(dice, 70))
        random_words(dice, sound.table + (roll_percent(dice, 70) ? 1016 : 0),
                     sound.table_words - 1016);
    if (roll_percent(dice, 70))
        random_words(dice, sound.cache + (roll_percent(dice, 70) ? 1016 : 0),
                     sound.cache_words - 1016);
    if (roll_percent(dice, 60)) /* as many records in use as the limits allow */
        sound.table[1] = 2 * sound.model.route_limit, sound.cache[1] = sound.model.entry_limit;
    lend_pair(dice, sound.table, sound.table_words, sound.cache, sound.cache_words);
    lent.pair.tallies = sound.tallies;
    checks();
    calls_on_lent(dice, &sound, 20);
    set_up_lent();
    random_checked++;
    model_free(&sound.model);
}

/* ---- stores too short: a sound pair cut off, down to no words at all */

static size_t cut(struct dice *dice, size_t need)
{
    uint32_t kind = roll_below(dice, 4);
    if (kind == 0)
        return need - 1;
    return kind == 1 ? roll_below(dice, 4) : kind == 2 ? 1023 : roll_below(dice, (uint32_t)need);
}

static void short_stores(struct dice *dice)
{
    static struct sound sound;
    make_sound(dice, &sound);
    size_t table_need = KOP_TABLE_WORDS(sound.model.route_limit), cache_need = KOP_CACHE_WORDS(sound.model.entry_limit);
    uint32_t which = 1 + roll_below(dice, 3);
    size_t table_words = which & 1 ? cut(dice, table_need) : table_need;
    size_t cache_words = which & 2 ? cut(dice, cache_need) : cache_need;
    lend_pair(dice, sound.table, table_words, sound.cache, cache_words);
    lent.pair.tallies = sound.tallies;
    expect(kop_check(lent.pair.table, table_words, lent.pair.cache, cache_words) == 0, "the check accepts a short store");
    expect(kop_table_check(lent.pair.table, table_words) == !(which & 1), "the check of a short table");
    keep_words();
    if (which & 1)
        expect(kop_table_setup(lent.pair.table, table_words, sound.model.route_limit) == 7, "set-up of a short table");
    if (which & 2)
        expect(kop_cache_setup(lent.pair.cache, cache_words, sound.model.entry_limit) == 7, "set-up of a short cache");
    expect(table_kept() && cache_kept(), "a refused set-up changed a word");
    expect_guards();
    calls_on_lent(dice, &sound, 20);
    short_checked++;
    model_free(&sound.model);
}

int main(int count, char **arguments)
{
    struct dice dice = { count > 1 ? strtoull(arguments[1], NULL, 10) : 1 };
    watch_calls();
    make_fences();
    for (int i = 0; i < 120; i++)
        flipped_bits(&dice);
    for (int i = 0; i < 4000; i++)
        likely_stores(&dice);
    for (int i = 0; i < 10000; i++)
        random_stores(&dice);
    for (int i = 0; i < 4000; i++)
        short_stores(&dice);
    printf("%" PRIu64 " calls; %" PRIu64 " flipped bits, of which %" PRIu64 " made a pair unsound; %" PRIu64
           " pairs of likely words, %" PRIu64 " of random words, %" PRIu64 " too short; %" PRIu64
           " sound pairs checked, and %" PRIu64 " calls on sound pairs that no call had made\n",
           calls_made(), flips_checked, flips_unsound, likely_checked, random_checked, short_checked,
           sound_pairs_checked(), sound_pairs_called());
    free_fences();
    return 0;
}
