#include "calls.h"

/* ---- dice: SplitMix64 of Steele, Lea and Flood (2014) */

uint64_t roll(struct dice *dice)
{
    uint64_t mixed = dice->state += UINT64_C(0x9e3779b97f4a7c15);
    mixed = (mixed ^ mixed >> 30) * UINT64_C(0xbf58476d1ce4e5b9);
    mixed = (mixed ^ mixed >> 27) * UINT64_C(0x94d049bb133111eb);
    return mixed ^ mixed >> 31;
}

uint32_t roll_below(struct dice *dice, uint32_t end)
{
    return (uint32_t)((roll(dice) >> 32) * end >> 32);
}

bool roll_percent(struct dice *dice, uint32_t percent)
{
    return roll_below(dice, 100) < percent;
}

uint32_t roll_limit(struct dice *dice, uint32_t largest)
{
    uint32_t bits = 0;
    while (bits < 31 && largest >> (bits + 1) != 0)
        bits++;
    uint32_t scale = UINT32_C(1) << roll_below(dice, bits + 1), limit = scale + roll_below(dice, scale);
    return limit < largest ? limit : largest;
}

/* ---- arguments */

struct world roll_world(struct dice *dice, uint32_t route_limit)
{
    uint32_t free_bits = 2, shift = roll_below(dice, 20);
    while (free_bits < 14 && UINT32_C(1) << free_bits < route_limit)
        free_bits++;
    free_bits += roll_below(dice, 3);
    struct world world = { (uint32_t)roll(dice), 0 };
    for (uint32_t i = 0; i < free_bits; i++)
        world.mask |= roll_percent(dice, 50) ? UINT32_C(1) << (shift + i) % 32 : UINT32_C(1) << roll_below(dice, 32);
    return world;
}

uint32_t roll_address(struct dice *dice, struct world world)
{
    return world.base ^ ((uint32_t)roll(dice) & world.mask);
}

/* One past a free bit as often as not, so that prefixes part where addresses do. */
static uint32_t roll_length(struct dice *dice, struct world world)
{
    uint32_t length = roll_below(dice, 33);
    if (roll_percent(dice, 20))
        return length;
    while (length > 0 && (world.mask >> (32 - length) & 1) == 0)
        length--;
    return length;
}

static uint32_t roll_hop(struct dice *dice)
{
    uint32_t kind = roll_below(dice, 16);
    if (kind == 0)
        return roll_percent(dice, 50) ? 1 : 65535;
    return kind == 1 ? 1 + roll_below(dice, 65535) : 1 + roll_below(dice, 3);
}

static uint32_t refused_length(struct dice *dice)
{
    return roll_percent(dice, 50) ? 33 : 33 + roll_below(dice, UINT32_MAX - 32);
}

static uint32_t refused_hop(struct dice *dice)
{
    static const uint32_t edges[] = { 0, 65536, UINT32_MAX };
    uint32_t kind = roll_below(dice, 4);
    return kind < 3 ? edges[kind] : 65536 + roll_below(dice, UINT32_MAX - 65535);
}

/* An address inside a prefix. */
static uint32_t roll_inside(struct dice *dice, struct model_prefix prefix)
{
    uint32_t any = (uint32_t)roll(dice);
    return prefix.address | (any ^ model_prefix_of(any, prefix.length).address);
}

static struct call roll_lookup(struct dice *dice, struct world world, const struct model *model)
{
    struct call call = { .kind = CALL_LOOKUP, .address = roll_address(dice, world) };
    uint32_t kind = roll_below(dice, 10);
    if (kind < 3 && model->entry_count != 0)
        call.address = roll_inside(dice, model->entries[roll_below(dice, model->entry_count)].prefix);
    else if (kind == 3 && model->route_count != 0)
        call.address = roll_inside(dice, model->routes[roll_below(dice, model->route_count)].prefix);
    else if (kind == 4)
        call.address = (uint32_t)roll(dice);
    return call;
}

/* The prefix of an update: of a route, of an entry, inside an entry, around one, or any. */
static struct model_prefix roll_prefix(struct dice *dice, struct world world, const struct model *model, uint32_t held)
{
    struct model_prefix prefix = { roll_address(dice, world), roll_length(dice, world) };
    if (model->route_count != 0 && roll_percent(dice, held))
        return model->routes[roll_below(dice, model->route_count)].prefix;
    if (model->entry_count == 0 || roll_percent(dice, 60))
        return prefix;
    struct model_prefix entry = model->entries[roll_below(dice, model->entry_count)].prefix;
    uint32_t kind = roll_below(dice, 3);
    if (kind == 0)
        return entry;
    prefix.address = roll_inside(dice, entry);
    prefix.length = kind == 1 ? entry.length + roll_below(dice, 33 - entry.length) : roll_below(dice, entry.length + 1);
    return prefix;
}

static struct call roll_update(struct dice *dice, struct world world, const struct model *model, enum call_kind kind)
{
    struct model_prefix prefix = roll_prefix(dice, world, model, kind == CALL_WITHDRAW ? 60 : 15);
    struct call call = { kind, prefix.address, prefix.length, roll_hop(dice) };
    if (prefix.length <= 32 && roll_percent(dice, 30)) /* bits past the length, which are to be cleared */
        call.address = roll_inside(dice, model_prefix_of(prefix.address, prefix.length));
    if (roll_percent(dice, 4))
        call.length = refused_length(dice);
    if (roll_percent(dice, 4))
        call.hop = refused_hop(dice);
    return call;
}

struct mix roll_mix(struct dice *dice)
{
    static const struct mix mixes[] = { { 80, 5 }, { 25, 15 }, { 10, 10 }, { 4, 3 }, { 15, 50 } };
    return mixes[roll_below(dice, sizeof mixes / sizeof mixes[0])];
}

struct call roll_call(struct dice *dice, struct world world, struct mix mix, const struct model *model)
{
    uint32_t kind = roll_below(dice, 100);
    if (kind < mix.announce)
        return roll_update(dice, world, model, CALL_ANNOUNCE);
    if (kind < mix.announce + mix.withdraw)
        return roll_update(dice, world, model, CALL_WITHDRAW);
    return roll_lookup(dice, world, model);
}

/* ---- making a call */

uint32_t answer_words(struct call call)
{
    return call.kind == CALL_LOOKUP ? 5 : 2;
}

uint32_t call_library(const struct pair *pair, struct kop_tallies *tallies, struct call call, uint32_t *answer)
{
    uint32_t *table = pair->table, *cache = pair->cache;
    size_t table_words = pair->table_words, cache_words = pair->cache_words;
    if (call.kind == CALL_LOOKUP)
        return kop_lookup(table, table_words, cache, cache_words, tallies, call.address, answer);
    if (call.kind == CALL_ANNOUNCE)
        return kop_announce(table, table_words, cache, cache_words, tallies, call.address, call.length, call.hop, answer);
    return kop_withdraw(table, table_words, cache, cache_words, tallies, call.address, call.length, answer);
}

uint32_t call_model(struct model *model, struct call call, uint32_t *answer)
{
    if (call.kind == CALL_LOOKUP)
        return model_lookup(model, call.address, answer);
    if (call.kind == CALL_ANNOUNCE)
        return model_announce(model, call.address, call.length, call.hop, answer);
    return model_withdraw(model, call.address, call.length, answer);
}
