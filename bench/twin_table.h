/*
 * The table: a path-compressed trie. A cell is a place for a node number: cell 2 p + b is the side b of node p.
 *
 * Part of twin.c, which alone includes it: the compiler sees the whole twin at once.
 */
#ifndef TWIN_TABLE_H
#define TWIN_TABLE_H

enum { TABLE_LIMIT = 0, TABLE_NODES = 1, TABLE_ROUTES = 2 };

struct node {
    uint32_t address;
    uint32_t length;
    uint32_t mark; /* hop + 1, or 0 for a branch */
    uint32_t child[2];
    uint32_t up; /* the cell that points here */
    uint32_t unused[2];
};

static inline const struct node *nodes_of(const uint32_t *table)
{
    return (const struct node *)(table + HEADER_WORDS);
}

static inline struct node *nodes_in(uint32_t *table)
{
    return (struct node *)(table + HEADER_WORDS);
}

static inline uint32_t *cell_in(struct node *nodes, uint32_t cell)
{
    return &nodes[cell / 2].child[cell % 2];
}

uint32_t twin_table_setup(uint32_t *table, size_t table_words, uint32_t limit)
{
    uint32_t number = setup_number(table_words, TABLE_WORDS_A_ROUTE, limit);
    if (number != KOP_DONE)
        return number;
    table[TABLE_LIMIT] = limit;
    table[TABLE_NODES] = 0;
    table[TABLE_ROUTES] = 0;
    nodes_in(table)[0].child[0] = 0;
    return KOP_DONE;
}

struct stop {
    uint32_t last;   /* the last node that contains the prefix */
    uint32_t beyond; /* the node after it, that does not */
    uint32_t best;   /* the last that is a route */
    uint32_t examined;
};

/* From the root by the first `length` bits of the address. */
static inline struct stop descend(const struct node *nodes, uint32_t address, uint32_t length)
{
    struct stop stop = { 0, 0, 0, 0 };
    uint32_t at = nodes[0].child[0];
    while (at != 0) {
        const struct node *node = &nodes[at];
        stop.examined++;
        if (node->length > length || !agree(node->address, address, node->length)) {
            stop.beyond = at;
            break;
        }
        stop.last = at;
        if (node->mark != 0)
            stop.best = at;
        if (node->length == length)
            break;
        at = node->child[bit_at(address, node->length)];
    }
    return stop;
}

static inline bool has_child(const struct node *node)
{
    return (node->child[0] | node->child[1]) != 0;
}

/* The shortest prefix of the address that is no shorter than its match and holds no longer route. */
static inline uint32_t least_length(const struct node *nodes, uint32_t address, struct stop stop)
{
    if (stop.beyond != 0)
        return 1 + common_bits(address, nodes[stop.beyond].address, nodes[stop.beyond].length);
    return nodes[stop.last].length + has_child(&nodes[stop.last]);
}

struct standing {
    uint32_t mark; /* of the longest route that contains the prefix, or 0 */
    bool inside;   /* whether a route lies strictly inside it */
};

static inline struct standing judge(const struct node *nodes, uint32_t address, uint32_t length)
{
    struct stop stop = descend(nodes, address, length);
    struct standing standing = { stop.best == 0 ? 0 : nodes[stop.best].mark, false };
    if (stop.last != 0 && nodes[stop.last].length == length)
        standing.inside = has_child(&nodes[stop.last]);
    else if (stop.beyond != 0)
        standing.inside = nodes[stop.beyond].length >= length && agree(address, nodes[stop.beyond].address, length);
    return standing;
}

/* ---- updates of the table */

static void put_node(struct node *nodes, uint32_t place, struct node node)
{
    struct node *slot = &nodes[place];
    slot->address = node.address;
    slot->length = node.length;
    slot->mark = node.mark;
    slot->child[0] = node.child[0];
    slot->child[1] = node.child[1];
    slot->up = node.up;
    *cell_in(nodes, node.up) = place;
}

static void set_counts(uint32_t *table, uint32_t nodes, uint32_t routes)
{
    table[TABLE_NODES] = nodes;
    table[TABLE_ROUTES] = routes;
}

/* The prefix has a node: a route takes the hop, and a branch becomes a route if there is room. */
static uint32_t renew(uint32_t *table, struct node *node, uint32_t hop)
{
    if (node->mark == 0) {
        if (table[TABLE_ROUTES] == table[TABLE_LIMIT])
            return KOP_TABLE_FULL;
        table[TABLE_ROUTES]++;
    }
    node->mark = hop + 1;
    return KOP_DONE;
}

/* The prefix has no node and belongs in the cell: as a leaf, above the node that hangs there, or beside it. */
static uint32_t add_route(uint32_t *table, uint32_t cell, uint32_t below, uint32_t address, uint32_t length,
                          uint32_t hop)
{
    struct node *nodes = nodes_in(table);
    uint32_t count = table[TABLE_NODES], routes = table[TABLE_ROUTES], new = count + 1;
    struct node route = { .address = trim(address, length), .length = length, .mark = hop + 1, .up = cell };
    if (routes == table[TABLE_LIMIT])
        return KOP_TABLE_FULL;
    if (below == 0) {
        put_node(nodes, new, route);
        set_counts(table, new, routes + 1);
        return KOP_DONE;
    }
    uint32_t there = nodes[below].address, agreed = common_bits(address, there, nodes[below].length);
    if (length <= agreed) {
        uint32_t side = bit_at(there, length);
        route.child[side] = below;
        put_node(nodes, new, route);
        nodes[below].up = 2 * new + side;
        set_counts(table, new, routes + 1);
        return KOP_DONE;
    }
    uint32_t side = bit_at(there, agreed);
    struct node branch = { .address = trim(address, agreed), .length = agreed, .up = cell };
    branch.child[side] = below;
    put_node(nodes, new, branch);
    nodes[below].up = 2 * new + side;
    route.up = 2 * new + (1 - side);
    put_node(nodes, new + 1, route);
    set_counts(table, new + 1, routes + 1);
    return KOP_DONE;
}

static uint32_t announce_route(uint32_t *table, uint32_t address, uint32_t length, uint32_t hop)
{
    struct node *nodes = nodes_in(table);
    struct stop stop = descend(nodes, address, length);
    if (stop.last == 0)
        return add_route(table, 0, stop.beyond, address, length, hop);
    struct node *last = &nodes[stop.last];
    if (last->length == length)
        return renew(table, last, hop);
    return add_route(table, 2 * stop.last + bit_at(address, last->length), stop.beyond, address, length, hop);
}

/* A node is taken out: its one child, or none, takes its cell. */
static void cut_out(struct node *nodes, uint32_t place, uint32_t child)
{
    uint32_t cell = nodes[place].up;
    *cell_in(nodes, cell) = child;
    if (child != 0)
        nodes[child].up = cell;
}

/* The last node comes to the place of one that is gone. */
static void close_place(struct node *nodes, uint32_t last, uint32_t gone)
{
    if (gone == last)
        return;
    struct node node = nodes[last];
    put_node(nodes, gone, node);
    for (uint32_t side = 0; side < 2; side++)
        if (node.child[side] != 0)
            nodes[node.child[side]].up = 2 * gone + side;
}

static void drop_node(uint32_t *table, uint32_t place, uint32_t child)
{
    struct node *nodes = nodes_in(table);
    uint32_t count = table[TABLE_NODES];
    cut_out(nodes, place, child);
    close_place(nodes, count, place);
    set_counts(table, count - 1, table[TABLE_ROUTES] - 1);
}

/* A leaf and the branch it hangs at: the branch's other child takes the branch's cell. */
static void drop_both(uint32_t *table, uint32_t place, uint32_t parent, uint32_t other)
{
    struct node *nodes = nodes_in(table);
    uint32_t count = table[TABLE_NODES];
    uint32_t higher = place > parent ? place : parent, lower = place > parent ? parent : place;
    cut_out(nodes, place, 0);
    cut_out(nodes, parent, other);
    close_place(nodes, count, higher);
    close_place(nodes, count - 1, lower);
    set_counts(table, count - 2, table[TABLE_ROUTES] - 1);
}

static uint32_t withdraw_route(uint32_t *table, uint32_t address, uint32_t length)
{
    struct node *nodes = nodes_in(table);
    uint32_t place = descend(nodes, address, length).last;
    struct node *node = &nodes[place];
    if (place == 0 || node->length != length || node->mark == 0)
        return KOP_ROUTE_NOT_HELD;
    if (node->child[0] != 0 && node->child[1] != 0) {
        node->mark = 0;
        table[TABLE_ROUTES]--;
        return KOP_DONE;
    }
    uint32_t child = node->child[0] | node->child[1], cell = node->up, parent = cell / 2;
    if (child != 0 || parent == 0 || nodes[parent].mark != 0)
        drop_node(table, place, child);
    else
        drop_both(table, place, parent, nodes[parent].child[1 - cell % 2]);
    return KOP_DONE;
}

#endif
