/*
 * The cache: entries in slots, a trie of branches above them, and a ring through them in the order of use.
 *
 * Part of twin.c, which alone includes it: the compiler sees the whole twin at once.
 */
#ifndef TWIN_CACHE_H
#define TWIN_CACHE_H

enum { CACHE_LIMIT = 0, CACHE_ENTRIES = 1 };

/* Node 2 i is the entry of slot i, node 2 i + 1 its branch, whose prefix is the first bits of the entry's. */
struct slot {
    uint32_t address;
    uint32_t packed; /* hop x 64 + length */
    uint32_t prev, next;
    uint32_t up;       /* the cell of the entry */
    uint32_t child[2]; /* of the branch */
    uint32_t branch;   /* the cell of the branch x 64 + its length */
};

static inline const struct slot *slots_of(const uint32_t *cache)
{
    return (const struct slot *)(cache + HEADER_WORDS);
}

static inline struct slot *slots_in(uint32_t *cache)
{
    return (struct slot *)(cache + HEADER_WORDS);
}

static inline uint32_t *side_in(struct slot *slots, uint32_t cell)
{
    return &slots[cell / 2].child[cell % 2];
}

static inline uint32_t up_of(const struct slot *slots, uint32_t node)
{
    const struct slot *slot = &slots[node / 2];
    return node % 2 == 0 ? slot->up : slot->branch / 64;
}

static inline void set_up(struct slot *slots, uint32_t node, uint32_t cell)
{
    struct slot *slot = &slots[node / 2];
    if (node % 2 == 0)
        slot->up = cell;
    else
        slot->branch = cell * 64 + slot->branch % 64;
}

uint32_t twin_cache_setup(uint32_t *cache, size_t cache_words, uint32_t limit)
{
    uint32_t number = setup_number(cache_words, CACHE_WORDS_AN_ENTRY, limit);
    if (number != KOP_DONE)
        return number;
    struct slot *header = slots_in(cache);
    cache[CACHE_LIMIT] = limit;
    cache[CACHE_ENTRIES] = 0;
    header->child[0] = 0;
    header->prev = 0;
    header->next = 0;
    return KOP_DONE;
}

/* The node where the walk by the address's bits stops: its slot's entry has the most leading bits in common with it. */
static inline uint32_t walk(const struct slot *slots, uint32_t address)
{
    uint32_t at = slots[0].child[0];
    while (at % 2 == 1) {
        const struct slot *slot = &slots[at / 2];
        uint32_t length = slot->branch % 64;
        if (!agree(slot->address, address, length))
            break;
        at = slot->child[bit_at(address, length)];
    }
    return at;
}

static inline void unlink_slot(struct slot *slots, uint32_t place)
{
    uint32_t before = slots[place].prev, after = slots[place].next;
    slots[before].next = after;
    slots[after].prev = before;
}

static inline void put_between(struct slot *slots, uint32_t before, uint32_t place, uint32_t after)
{
    slots[place].next = after;
    slots[before].next = place;
    slots[place].prev = before;
    slots[after].prev = place;
}

static inline void hang(struct slot *slots, uint32_t cell, uint32_t node)
{
    *side_in(slots, cell) = node;
    set_up(slots, node, cell);
}

/* The prefix comes into the slot after those in use, with a branch where it parts from the nearest node. */
static void insert_entry(uint32_t *cache, uint32_t entries, uint32_t address, uint32_t length, uint32_t hop)
{
    struct slot *slots = slots_in(cache);
    uint32_t place = entries + 1;
    struct slot *slot = &slots[place];
    if (entries == 0) {
        slot->address = address;
        slot->packed = hop * 64 + length;
        hang(slots, 0, 2 * place);
    } else {
        uint32_t nearest = walk(slots, address), cell = up_of(slots, nearest);
        const struct slot *there = &slots[nearest / 2];
        uint32_t agreed = common_bits(address, there->address, there->packed % 64), side = bit_at(address, agreed);
        slot->address = address;
        slot->packed = hop * 64 + length;
        slot->branch = cell * 64 + agreed;
        *side_in(slots, cell) = 2 * place + 1;
        hang(slots, 2 * place + (1 - side), nearest);
        hang(slots, 2 * place + side, 2 * place);
    }
    put_between(slots, 0, place, slots[0].next);
    cache[CACHE_ENTRIES] = place;
}

static void move_entry(struct slot *slots, uint32_t from, uint32_t to)
{
    slots[to].address = slots[from].address;
    slots[to].packed = slots[from].packed;
    hang(slots, slots[from].up, 2 * to);
    put_between(slots, slots[from].prev, to, slots[from].next);
}

static void move_branch(struct slot *slots, uint32_t from, uint32_t to)
{
    uint32_t left = slots[from].child[0], right = slots[from].child[1], branch = slots[from].branch;
    slots[to].child[0] = left;
    slots[to].child[1] = right;
    *side_in(slots, branch / 64) = 2 * to + 1;
    set_up(slots, left, 2 * to);
    set_up(slots, right, 2 * to + 1);
    slots[to].branch = branch;
}

/* An entry goes, and the branch it hangs at: that branch's own entry takes its slot, and the last slot the branch's. */
static void remove_entry(uint32_t *cache, uint32_t entries, uint32_t place)
{
    struct slot *slots = slots_in(cache);
    cache[CACHE_ENTRIES] = entries - 1;
    if (entries == 1) {
        unlink_slot(slots, place);
        slots[0].child[0] = 0;
        return;
    }
    uint32_t cell = slots[place].up, spent = cell / 2;
    hang(slots, slots[spent].branch / 64, slots[spent].child[1 - cell % 2]);
    unlink_slot(slots, place);
    if (spent != place)
        move_entry(slots, spent, place);
    if (spent != entries) {
        move_entry(slots, entries, spent);
        move_branch(slots, entries, spent);
    }
}

#endif
