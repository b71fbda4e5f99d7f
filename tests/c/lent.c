#include "lent.h"

#include <string.h>

static struct fence table_fence, cache_fence, tallies_fence, answer_fence;
static uint64_t sound_checked, sound_called;

uint64_t sound_pairs_checked(void)
{
    return sound_checked;
}

uint64_t sound_pairs_called(void)
{
    return sound_called;
}

/* ---- a sound pair to start from, kept beside the fences */

static struct model reading, reading_after; /* to read stores into */

/* A flipped limit may count the spare words in, so there is room for more than the largest limits. */
enum { ROUTE_ROOM = LARGEST_TABLE + 3, ENTRY_ROOM = LARGEST_CACHE + 5 };

bool read_as_sound(const uint32_t *table, size_t table_words, const uint32_t *cache, size_t cache_words)
{
    reading.route_limit = ROUTE_ROOM;
    reading.entry_limit = ENTRY_ROOM;
    return sound_pair(table, table_words, cache, cache_words, &reading);
}

/* Limits and spare words are small, so that a flipped bit often meets something. */
void make_sound(struct dice *dice, struct sound *sound)
{
    uint32_t route_limit = 1 + roll_below(dice, LARGEST_TABLE), entry_limit = 1 + roll_below(dice, LARGEST_CACHE);
    sound->table_words = KOP_TABLE_WORDS(route_limit) + roll_below(dice, 40);
    sound->cache_words = KOP_CACHE_WORDS(entry_limit) + roll_below(dice, 40);
    sound->world = roll_world(dice, route_limit);
    sound->model = model_make(route_limit, entry_limit);
    for (size_t i = 0; i < MOST_TABLE_WORDS; i++)
        sound->table[i] = roll_percent(dice, 50) ? 0 : (uint32_t)roll(dice);
    for (size_t i = 0; i < MOST_CACHE_WORDS; i++)
        sound->cache[i] = roll_percent(dice, 50) ? 0 : (uint32_t)roll(dice);
    struct pair pair = { sound->table, sound->cache, sound->table_words, sound->cache_words, { 0, 0, 0, 0, 0 } };
    expect(kop_table_setup(pair.table, pair.table_words, route_limit) == 0, "table set-up");
    expect(kop_cache_setup(pair.cache, pair.cache_words, entry_limit) == 0, "cache set-up");
    uint32_t calls = roll_below(dice, 80);
    for (uint32_t i = 0; i < calls; i++) {
        struct call call = roll_call(dice, sound->world, (struct mix){ 40, 10 }, &sound->model);
        uint32_t answer[5];
        one_more_call();
        call_library(&pair, &pair.tallies, call, answer);
        call_model(&sound->model, call, answer);
        expect(kop_check(pair.table, pair.table_words, pair.cache, pair.cache_words) == 1,
               "the check denies a pair that only calls have touched");
        sound_checked++;
    }
    sound->tallies = pair.tallies;
    expect(read_as_sound(sound->table, sound->table_words, sound->cache, sound->cache_words),
           "the words of a pair that only calls have touched are not sound");
}

/* ---- the fences */

void make_fences(void)
{
    table_fence = fence_make(MOST_TABLE_WORDS);
    cache_fence = fence_make(MOST_CACHE_WORDS);
    tallies_fence = fence_make(8);
    answer_fence = fence_make(8);
    lend(&tallies_fence, 0, true);
    lend(&answer_fence, 0, true);
    reading = model_make(ROUTE_ROOM, ENTRY_ROOM);
    reading_after = model_make(ROUTE_ROOM, ENTRY_ROOM);
}

void free_fences(void)
{
    model_free(&reading);
    model_free(&reading_after);
}

/* ---- calls on lent words between fences */

struct lent lent;

void lend_pair(struct dice *dice, const uint32_t *table, size_t table_words, const uint32_t *cache, size_t cache_words)
{
    lent.pair.table = lend(&table_fence, table_words, roll_percent(dice, 70));
    lent.pair.cache = lend(&cache_fence, cache_words, roll_percent(dice, 70));
    lent.pair.table_words = table_words;
    lent.pair.cache_words = cache_words;
    memcpy(lent.pair.table, table, table_words * sizeof(uint32_t));
    memcpy(lent.pair.cache, cache, cache_words * sizeof(uint32_t));
}

void keep_words(void)
{
    memcpy(lent.table, lent.pair.table, lent.pair.table_words * sizeof(uint32_t));
    memcpy(lent.cache, lent.pair.cache, lent.pair.cache_words * sizeof(uint32_t));
}

bool table_kept(void)
{
    return memcmp(lent.table, lent.pair.table, lent.pair.table_words * sizeof(uint32_t)) == 0;
}

bool cache_kept(void)
{
    return memcmp(lent.cache, lent.pair.cache, lent.pair.cache_words * sizeof(uint32_t)) == 0;
}

void expect_guards(void)
{
    expect(guards_stand(&table_fence) && guards_stand(&cache_fence) && guards_stand(&tallies_fence)
               && guards_stand(&answer_fence), "a word that was not lent has changed");
}

/* The numbers that a call may give on any stores: `number` is 0, 9, or the one that sound stores may give too. */
static bool allowed(struct call call, uint32_t number)
{
    if (call.kind != CALL_LOOKUP && call.length > 32)
        return number == 1;
    if (call.kind == CALL_ANNOUNCE && (call.hop == 0 || call.hop > 65535))
        return number == 2;
    if (number == 0 || number == 9)
        return true;
    return call.kind != CALL_LOOKUP && number == (call.kind == CALL_ANNOUNCE ? 3 : 4);
}

static bool all_zero(const uint32_t *words, uint32_t count)
{
    for (uint32_t i = 0; i < count; i++)
        if (words[i] != 0)
            return false;
    return true;
}

/* One call with its tallies and answer between fences too. */
static void fenced_call(struct dice *dice, struct call call, struct outcome *outcome)
{
    uint32_t words = answer_words(call);
    uint32_t *answer = lend(&answer_fence, words, roll_percent(dice, 70));
    void *tallies_words = lend(&tallies_fence, sizeof(struct kop_tallies) / sizeof(uint32_t), roll_percent(dice, 70));
    struct kop_tallies *tallies = tallies_words;
    *tallies = lent.pair.tallies;
    uint32_t number = call_library(&lent.pair, tallies, call, answer);
    one_more_call();
    expect_guards();
    if (number != 0)
        expect(all_zero(answer, words), "a refused call left an answer");
    if (number == 1 || number == 2)
        expect(memcmp(tallies, &lent.pair.tallies, sizeof *tallies) == 0, "a refused call changed the tallies");
    lent.pair.tallies = *tallies;
    outcome->number = number;
    memcpy(outcome->answer, answer, words * sizeof *answer);
}

void checks(void)
{
    keep_words();
    uint32_t verdict = kop_check(lent.pair.table, lent.pair.table_words, lent.pair.cache, lent.pair.cache_words);
    uint32_t table_verdict = kop_table_check(lent.pair.table, lent.pair.table_words);
    one_more_call();
    expect(verdict <= 1 && table_verdict <= 1, "a check answers neither 0 nor 1");
    expect(table_kept() && cache_kept(), "a check wrote to a store");
    expect_guards();
    bool sound = read_as_sound(lent.pair.table, lent.pair.table_words, lent.pair.cache, lent.pair.cache_words);
    expect(verdict == sound, sound ? "the check denies a sound pair" : "the check accepts an unsound pair");
    bool sound_table = read_table(lent.pair.table, lent.pair.table_words, &reading);
    expect(table_verdict == sound_table, "the check of a table is wrong");
}

/* What the model says of a call on the lent words, where these are sound, and leaves in `reading`. */
static bool call_as_model(struct call call, struct outcome *right)
{
    if (!read_as_sound(lent.pair.table, lent.pair.table_words, lent.pair.cache, lent.pair.cache_words))
        return false;
    reading.route_limit = lent.pair.table[0];
    reading.entry_limit = lent.pair.cache[0];
    right->number = call_model(&reading, call, right->answer);
    return true;
}

/* A sound pair, whoever made it, is bound to the model's number, answer and contents. */
static void expect_as_model(const struct outcome *real, const struct outcome *right)
{
    expect(real->number == right->number && memcmp(real->answer, right->answer, sizeof real->answer) == 0,
           "a sound pair does not answer as the model");
    expect(read_table(lent.pair.table, lent.pair.table_words, &reading_after)
               && read_cache(lent.pair.cache, lent.pair.cache_words, &reading_after)
               && same_contents(&reading, &reading_after), "a sound pair does not become what the model does");
    sound_called++;
}

/* Some random calls on the lent words, whatever these are by now. */
void calls_on_lent(struct dice *dice, const struct sound *sound, uint32_t count)
{
    for (uint32_t i = 0; i < count; i++) {
        struct call call = roll_call(dice, sound->world, (struct mix){ 30, 30 }, &sound->model);
        struct outcome real = { 0, { 0, 0, 0, 0, 0 } }, right = real;
        if (roll_percent(dice, 10))
            call.address = (uint32_t)roll(dice);
        keep_words();
        bool bound = call_as_model(call, &right);
        fenced_call(dice, call, &real);
        expect(allowed(call, real.number), "a number that the call does not give");
        if (bound)
            expect_as_model(&real, &right);
        if (call.kind == CALL_LOOKUP || real.number == 1 || real.number == 2)
            expect(table_kept(), "a lookup or a refused call changed the table");
        if (real.number == 1 || real.number == 2)
            expect(cache_kept(), "a refused call changed the cache");
    }
    checks();
}

/* Set-up over whatever is there makes a sound pair. */
void set_up_lent(void)
{
    uint32_t route_limit = (uint32_t)((lent.pair.table_words - 1024) / 16);
    uint32_t entry_limit = (uint32_t)((lent.pair.cache_words - 1024) / 8);
    expect(kop_table_setup(lent.pair.table, lent.pair.table_words, route_limit) == 0, "table set-up over other words");
    expect(kop_cache_setup(lent.pair.cache, lent.pair.cache_words, entry_limit) == 0, "cache set-up over other words");
    expect(kop_check(lent.pair.table, lent.pair.table_words, lent.pair.cache, lent.pair.cache_words) == 1,
           "the check denies stores just set up");
    expect_guards();
}
