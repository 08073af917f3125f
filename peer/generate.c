#include "generate.h"

#include <string.h>

/* ---- Random numbers: splitmix64 ---- */

static uint64_t random_bits(struct random *r)
{
    uint64_t z = r->state += 0x9E3779B97F4A7C15u;
    z = (z ^ z >> 30) * 0xBF58476D1CE4E5B9u;
    z = (z ^ z >> 27) * 0x94D049BB133111EBu;
    return z ^ z >> 31;
}

struct random random_of(uint64_t seed, uint64_t number)
{
    struct random r = {seed};
    r.state = random_bits(&r) + number;
    r.state = random_bits(&r);
    return r;
}

unsigned random_below(struct random *r, unsigned bound)
{
    return (unsigned)(random_bits(r) >> 32) % bound;
}

static bool one_in(struct random *r, unsigned n)
{
    return random_below(r, n) == 0;
}

void random_fill(struct random *r, uint8_t *bytes, size_t length)
{
    uint64_t bits = 0;
    for (size_t i = 0; i < length; i++) {
        bits = i % 8 == 0 ? random_bits(r) : bits >> 8;
        bytes[i] = (uint8_t)(bits & 0xFF);
    }
}

/* ---- Graphs ---- */

static unsigned random_count(struct random *r, const struct sizes *most)
{
    switch (random_below(r, 6)) {
    case 0:
        return 0;
    case 1:
        return ENDLESS;
    case 2:
    case 3:
        return 1 + random_below(r, 3);
    default:
        return random_below(r, most->count + 1);
    }
}

/* Few rights are drawn and many granted, so that some draws are covered. */
static unsigned random_rights(struct random *r, bool many)
{
    unsigned a = random_below(r, 0x10000), b = random_below(r, 0x10000);
    switch (random_below(r, 4)) {
    case 0:
        return many ? 0xFFFF : 0;
    case 1:
        return many ? 0x0301 : 0x0101;
    case 2:
        return many ? a | b : a & b;
    default:
        return many ? a | b | 0x0F0F : a & b & 0x0F0F;
    }
}

/* Mostly the same few, so that throws meet catch rows. */
static unsigned random_exception(struct random *r)
{
    static const unsigned usual[3] = {0, 1, 7};
    return one_in(r, 4) ? random_below(r, EXCEPTIONS)
                        : usual[random_below(r, 3)];
}

/* The exception or an ancestor of it. */
static unsigned random_kin(struct random *r, const struct draft *d,
                           unsigned exception)
{
    while (d->parent[exception] != NO_PARENT && one_in(r, 2))
        exception = d->parent[exception];
    return exception;
}

static unsigned random_parent(struct random *r, unsigned exception)
{
    if (exception == 0 || one_in(r, 3))
        return NO_PARENT;
    return one_in(r, 2) ? exception - 1 : random_below(r, exception);
}

static unsigned random_repeats(struct random *r, const struct sizes *most)
{
    switch (random_below(r, 4)) {
    case 0:
        return 1;
    case 1: /* near 254, where a drop becomes endless */
        return most->repeats - random_below(r, 3);
    default:
        return 1 + random_below(r, most->repeats);
    }
}

static void add_node(struct random *r, const struct sizes *most,
                     struct draft *d, unsigned method, bool goes_on)
{
    unsigned type = random_below(r, d->types), count;
    switch (random_below(r, goes_on ? 12 : 16)) {
    case 0:
    case 1:
        draft_node(d, method, PLAIN);
        break;
    case 2:
    case 3:
    case 4:
        count = random_count(r, most);
        draft_grant(d, method, type, count, random_rights(r, true));
        break;
    case 5:
    case 6:
    case 7:
    case 8:
        draft_draw(d, method, type, random_rights(r, false));
        break;
    case 9:
    case 10:
    case 11:
        draft_call(d, method, random_repeats(r, most));
        break;
    case 12:
        draft_node(d, method, RETURN);
        break;
    default:
        draft_throw(d, method, random_exception(r));
    }
}

static unsigned random_line(struct random *r)
{
    static const unsigned edges[4] = {0, 1, 255, 0xFFFF};
    return one_in(r, 2) ? edges[random_below(r, 4)] : random_below(r, 0x10000);
}

/* Any node of this kind, or any node at all if there is none. */
static unsigned any_of_kind(struct random *r, const struct draft *d,
                            enum kind kind)
{
    unsigned node = random_below(r, d->nodes);
    for (unsigned i = 0; i < d->nodes && d->node[node].kind != kind; i++)
        node = (node + 1) % d->nodes;
    return node;
}

/* The next node of a method after this one, in a ring. */
static unsigned next_node(const struct draft *d, unsigned method,
                          unsigned after)
{
    do
        after = (after + 1) % d->nodes;
    while (d->node[after].method != method);
    return after;
}

/* Any node of the same method. */
static unsigned other_node(struct random *r, const struct draft *d,
                           unsigned node)
{
    return next_node(d, d->node[node].method, random_below(r, d->nodes));
}

/* Mostly a later method, since recursion is frequent enough. */
static unsigned other_method(struct random *r, const struct draft *d,
                             unsigned method)
{
    unsigned later = d->methods - method - 1;
    if (later > 0 && !one_in(r, 3))
        return method + 1 + random_below(r, later);
    return random_below(r, d->methods);
}

/* For the exception or an ancestor of it. */
static void add_catch(struct random *r, struct draft *d, unsigned node,
                      unsigned exception)
{
    unsigned kind = random_kin(r, d, exception);
    draft_catch(d, node, kind, other_node(r, d, node));
}

static void add_callee_and_catches(struct random *r, struct draft *d,
                                   unsigned node)
{
    for (unsigned callees = 1 + random_below(r, 6) / 3; callees > 0; callees--)
        draft_callee(d, node, other_method(r, d, d->node[node].method));
    for (unsigned catches = random_below(r, 3); catches > 0; catches--)
        add_catch(r, d, node, random_exception(r));
}

static void add_rows(struct random *r, struct draft *d, unsigned node)
{
    unsigned kind = d->node[node].kind;
    if (kind == RETURN)
        return;
    if (kind == THROW) {
        for (unsigned catches = random_below(r, 3); catches > 0; catches--)
            add_catch(r, d, node, d->node[node].number);
        return;
    }
    if (!one_in(r, 8))
        draft_flow(d, node, next_node(d, d->node[node].method, node));
    if (!one_in(r, 3))
        draft_flow(d, node, other_node(r, d, node));
    if (kind == CALL)
        add_callee_and_catches(r, d, node);
}

/* Each method starts with a node that goes on and mostly ends in a return, or
 * too little would be reached. */
static void add_nodes(struct random *r, const struct sizes *exact,
                      struct draft *d)
{
    unsigned ends = exact->nodes - exact->methods;
    for (unsigned n = 0; n < exact->methods; n++)
        add_node(r, exact, d, n, true);
    for (unsigned n = exact->methods; n < exact->nodes; n++)
        if (n >= ends && !one_in(r, 4))
            draft_node(d, n - ends, RETURN);
        else
            add_node(r, exact, d, random_below(r, d->methods), false);
}

/* With just these numbers of methods, nodes and types. Half of the graphs have
 * families of exceptions. */
static void generate_exact(struct random *r, const struct sizes *exact,
                           struct draft *d)
{
    draft_start(d, exact->types);
    for (unsigned m = 0; m < exact->methods; m++)
        draft_method(d);
    add_nodes(r, exact, d);
    bool families = one_in(r, 2);
    for (unsigned e = 0; e < EXCEPTIONS && families; e++)
        d->parent[e] = (uint8_t)random_parent(r, e);
    for (unsigned m = 0; m < d->methods; m++)
        if (one_in(r, 4))
            d->entry[m] = (uint16_t)other_node(r, d, d->entry[m]);
    for (unsigned n = 0; n < d->nodes; n++) {
        d->node[n].line = (uint16_t)random_line(r);
        add_rows(r, d, n);
    }
    for (unsigned t = 0; t < d->types; t++) {
        d->opening_rights[t] = (uint16_t)random_rights(r, true);
        d->opening_count[t] = (uint16_t)random_count(r, exact);
    }
}

/* Of one call or two, in one graph of sixteen. */
static void lose_call_rows(struct random *r, struct draft *d)
{
    if (!one_in(r, 16))
        return;
    for (unsigned calls = 1 + random_below(r, 2); calls > 0; calls--)
        draft_take_out(&d->calls, any_of_kind(r, d, CALL));
}

void generate_graph(struct random *r, const struct sizes *most,
                    struct draft *d)
{
    struct sizes exact = *most;
    exact.methods = 1 + random_below(r, most->methods);
    unsigned fewest = smaller(most->nodes,
                              one_in(r, 8) ? exact.methods : 4 * exact.methods);
    exact.nodes = fewest + random_below(r, most->nodes - fewest + 1);
    exact.types = 1 + random_below(r, most->types);
    generate_exact(r, &exact, d);
    lose_call_rows(r, d);
}

void generate_limit_graph(struct random *r, struct draft *d)
{
    static const struct sizes exact = {MOST_METHODS, MOST_NODES, MOST_TYPES,
                                       255, 255};
    bool full = one_in(r, 2);
    generate_exact(r, &exact, d);
    while (full && (d->flow.count < MOST_FLOW || d->calls.count < MOST_CALLS
                    || d->catches.count < MOST_CATCHES))
        add_rows(r, d, random_below(r, d->nodes));
    lose_call_rows(r, d);
}

void generate_lines(struct random *r, uint8_t *graph, size_t length)
{
    struct shape s = shape_of(graph, length);
    uint8_t *row = graph + row_bytes[METHODS] * s.methods;
    for (unsigned n = 0; n < s.nodes; n++, row += row_bytes[NODES])
        write_word(row + 6, random_line(r));
}

/* ---- Opening stocks ---- */

/* Not at all, all the way, by one, or anything between. */
static unsigned random_step(struct random *r, unsigned room)
{
    switch (random_below(r, 4)) {
    case 0:
        return 0;
    case 1:
        return room;
    case 2:
        return smaller(room, 1);
    default:
        return random_below(r, room + 1);
    }
}

static void change_opening(struct random *r, uint8_t *row, bool more_rights,
                           bool larger_count)
{
    unsigned rights = read_word(row), count = read_word(row + 2);
    unsigned bits = one_in(r, 3) ? 0 : random_rights(r, one_in(r, 2));
    unsigned step = random_step(r, larger_count ? ENDLESS - count : count);
    write_word(row, more_rights ? rights | bits : rights & ~bits);
    write_word(row + 2, larger_count ? count + step : count - step);
}

unsigned generate_opening(struct random *r, enum opening_change change,
                          uint8_t *graph, size_t length)
{
    unsigned types = shape_of(graph, length).types;
    unsigned type = random_below(r, types);
    uint8_t *rows = graph + length - TRAILER_BYTES - row_bytes[OPENING] * types;
    if (change == SOME_RAISED) {
        bool all = one_in(r, 2);
        for (unsigned t = 0; t < types; t++)
            if (all || one_in(r, 2))
                change_opening(r, rows + row_bytes[OPENING] * t, true, true);
        return type;
    }
    bool up = change == ONE_MIXED ? one_in(r, 2) : change == ONE_RAISED;
    change_opening(r, rows + row_bytes[OPENING] * type, up,
                   change == ONE_MIXED ? !up : up);
    return type;
}

/* ---- Profiles ---- */

static void make(struct draft_node *node, enum kind kind)
{
    *node = (struct draft_node){.method = node->method, .kind = (uint8_t)kind,
                                .line = node->line};
}

static void make_plain(struct draft *d, unsigned node)
{
    make(&d->node[node], PLAIN);
}

/* Has a plain node or a grant ask for a draw. It can do so for draws of one
 * type only. */
static bool make_ask(struct draft *d, unsigned node, unsigned drawn,
                     bool asks[MOST_NODES])
{
    struct draft_node *n = &d->node[node];
    if ((n->kind != PLAIN && n->kind != GRANT)
        || (asks[node] && n->number != d->node[drawn].number))
        return false;
    n->kind = GRANT;
    n->number = d->node[drawn].number;
    n->count = 1;
    n->rights |= d->node[drawn].rights;
    asks[node] = true;
    return true;
}

/* Of the same method, where the entry is no draw. */
static unsigned other_than_draw(struct random *r, const struct draft *d,
                                unsigned node)
{
    do
        node = other_node(r, d, node);
    while (d->node[node].kind == DRAW);
    return node;
}

void generate_one_shot(struct random *r, struct draft *d)
{
    const struct draft_rows flow = d->flow;
    bool asks[MOST_NODES] = {false};
    for (unsigned m = 0; m < d->methods; m++)
        if (d->node[d->entry[m]].kind == DRAW)
            make_plain(d, d->entry[m]);
    for (unsigned row = 0; row < d->catches.count; row++)
        if (d->node[d->catches.row[row][2]].kind == DRAW)
            make_plain(d, d->catches.row[row][2]);
    d->flow.count = 0;
    for (unsigned row = 0; row < flow.count; row++) {
        unsigned from = flow.row[row][0], to = flow.row[row][1];
        if (d->node[to].kind == DRAW && !make_ask(d, from, to, asks))
            to = other_than_draw(r, d, from);
        draft_flow(d, from, to);
    }
    for (unsigned i = 0; i < 3 * d->nodes; i++) {
        unsigned to = i % d->nodes, from = other_node(r, d, to);
        if (d->node[to].kind == DRAW && make_ask(d, from, to, asks))
            draft_flow(d, from, to);
    }
}

void generate_session(struct random *r, struct draft *d)
{
    const struct draft_rows calls = d->calls;
    for (unsigned n = 0; n < d->nodes; n++)
        if (d->node[n].kind == GRANT && d->node[n].method == 0)
            d->node[n].count = ENDLESS;
        else if (d->node[n].kind == GRANT)
            make_plain(d, n);
    if (d->methods == 1)
        draft_node(d, draft_method(d), RETURN);
    d->calls.count = 0;
    for (unsigned row = 0; row < calls.count; row++) {
        unsigned method = calls.row[row][1];
        if (method == 0)
            method = 1 + random_below(r, d->methods - 1);
        draft_callee(d, calls.row[row][0], method);
    }
}

/* In a grant or a draw: type, rights or count. */
static void change_use(struct random *r, struct draft *d)
{
    static const uint8_t counts[6] = {0, 1, 2, 3, 254, 255};
    enum kind kind = one_in(r, 3) ? DRAW : GRANT;
    struct draft_node *n = &d->node[any_of_kind(r, d, kind)];
    if (n->kind != GRANT && n->kind != DRAW)
        return;
    if (n->kind == GRANT && one_in(r, 2))
        n->count = counts[random_below(r, 6)];
    else if (one_in(r, 3))
        n->number = (uint8_t)random_below(r, d->types);
    else
        n->rights ^= (uint16_t)(1u << random_below(r, 16));
}

/* A plain node, a grant or a draw becomes another of them. */
static void change_kind(struct random *r, struct draft *d)
{
    static const enum kind kinds[3] = {PLAIN, GRANT, DRAW};
    enum kind kind = kinds[random_below(r, 3)];
    struct draft_node *n = &d->node[any_of_kind(r, d, kind)];
    if (n->kind > DRAW)
        return;
    make(n, kinds[random_below(r, 3)]);
    if (n->kind == GRANT)
        n->count = one_in(r, 2) ? ENDLESS : 1;
}

/* Leads a row to another node of the same method. */
static void change_target(struct random *r, const struct draft *d,
                          struct draft_rows *rows, unsigned field)
{
    if (rows->count == 0)
        return;
    unsigned row = random_below(r, rows->count);
    draft_alter(rows, row, field, other_node(r, d, rows->row[row][0]));
}

static void change_callee(struct random *r, struct draft *d)
{
    unsigned method = one_in(r, 2) ? 0 : random_below(r, d->methods);
    if (d->calls.count > 0)
        draft_alter(&d->calls, random_below(r, d->calls.count), 1, method);
}

void generate_profile_change(struct random *r, struct draft *d)
{
    unsigned m = random_below(r, d->methods);
    switch (random_below(r, 8)) {
    case 0:
        d->entry[m] = (uint16_t)other_node(r, d, d->entry[m]);
        break;
    case 1:
        change_target(r, d, &d->flow, 1);
        break;
    case 2:
        change_target(r, d, &d->catches, 2);
        break;
    case 3:
        change_callee(r, d);
        break;
    case 4:
        change_kind(r, d);
        break;
    default:
        change_use(r, d);
    }
}

/* ---- Damage ---- */

static void damage_trailer(struct random *r, uint8_t *trailer)
{
    static const unsigned outside[6] = {0, 65, 513, 1025, 7, 0xFFFF};
    uint8_t *at = trailer + 2 * random_below(r, TABLES + 1);
    switch (random_below(r, 3)) {
    case 0:
        write_word(at, outside[random_below(r, 6)]);
        break;
    case 1:
        write_word(at, (read_word(at) + (one_in(r, 2) ? 1 : 0xFFFF)) & 0xFFFF);
        break;
    default: /* flow rows and call rows are of one length: the sum stays */
        write_word(trailer + 2 * FLOW, read_word(trailer + 2 * FLOW) + 1);
        write_word(trailer + 2 * CALLS,
                   (read_word(trailer + 2 * CALLS) + 0xFFFF) & 0xFFFF);
    }
}

/* Swaps two neighbouring rows, or makes the second equal to the first. */
static void damage_order(struct random *r, const struct draft *d,
                         uint8_t *graph)
{
    enum table table = random_below(r, TABLES);
    unsigned rows = draft_row_count(d, table);
    uint8_t first[MOST_ROW_BYTES];
    if (rows < 2)
        return;
    uint8_t *at = graph + draft_table_at(d, table)
                + random_below(r, rows - 1) * row_bytes[table];
    memcpy(first, at, row_bytes[table]);
    if (one_in(r, 2))
        memcpy(at, at + row_bytes[table], row_bytes[table]);
    memcpy(at + row_bytes[table], first, row_bytes[table]);
}

/* Sets a byte of a node, or any word, to a number that may be just outside. */
static void damage_field(struct random *r, const struct draft *d,
                         uint8_t *graph, size_t length)
{
    const unsigned near[4] = {d->nodes, d->methods, d->types,
                              random_below(r, 10)};
    unsigned value = near[random_below(r, 4)];
    if (one_in(r, 2))
        graph[draft_table_at(d, NODES)
              + random_below(r, row_bytes[NODES] * d->nodes)] =
            (uint8_t)(value & 0xFF);
    else
        write_word(graph + 2 * random_below(r, (unsigned)length / 2), value);
}

/* Another exception in one catch row, no repeats in one call, or a call made of
 * a plain node. */
static void damage_rare_field(struct random *r, const struct draft *d,
                              uint8_t *graph)
{
    unsigned node = random_below(r, d->nodes);
    uint8_t *row = graph + draft_table_at(d, NODES) + row_bytes[NODES] * node;
    uint8_t *catches = graph + draft_table_at(d, CATCHES);
    if (d->catches.count > 0 && one_in(r, 2)) {
        row = catches + row_bytes[CATCHES] * random_below(r, d->catches.count);
        write_word(row + 2, random_below(r, EXCEPTIONS + 1));
    } else if (d->node[node].kind == CALL) {
        row[3] = 0;
    } else if (d->node[node].kind == PLAIN) {
        row[1] = CALL, row[3] = 1;
    }
}

/* Another parent, or what is none: the exception itself, the next one, a number
 * that no exception has. */
static void damage_parent(struct random *r, const struct draft *d,
                          uint8_t *graph)
{
    unsigned exception = random_below(r, EXCEPTIONS);
    const unsigned parents[5] = {random_parent(r, exception), exception,
                                 exception + 1, EXCEPTIONS, NO_PARENT - 1};
    graph[draft_table_at(d, CATCHES) - EXCEPTIONS + exception] =
        (uint8_t)parents[random_below(r, 5)];
}

/* One place of the tables. */
static void damage_tables(struct random *r, const struct draft *d,
                          uint8_t *graph, size_t length)
{
    unsigned bit;
    switch (random_below(r, 9)) {
    case 0:
        damage_order(r, d, graph);
        break;
    case 1:
        bit = random_below(r, 8);
        graph[random_below(r, (unsigned)length)] ^= (uint8_t)(1u << bit);
        break;
    case 2: /* the last opening count, just before the trailer */
        write_word(graph + length - TRAILER_BYTES - 2,
                   254 + random_below(r, 4));
        break;
    case 3:
    case 4:
    case 5:
        damage_rare_field(r, d, graph);
        break;
    case 6:
        damage_parent(r, d, graph);
        break;
    default:
        damage_field(r, d, graph, length);
    }
}

size_t generate_damage(struct random *r, const struct draft *d, uint8_t *graph,
                       size_t length)
{
    size_t added = 1 + random_below(r, MOST_ADDED);
    switch (random_below(r, 8)) {
    case 0:
        return random_below(r, (unsigned)length);
    case 1:
        random_fill(r, graph + length, added);
        return length + added;
    case 2:
        damage_trailer(r, graph + length - TRAILER_BYTES);
        break;
    default: /* up to three places, for the order of the answers */
        for (unsigned places = 1 + random_below(r, 3); places > 0; places--)
            damage_tables(r, d, graph, length);
    }
    return length;
}

/* ---- Sheets ---- */

static void alter_word(struct random *r, uint8_t *sheet, size_t length)
{
    static const unsigned edges[7] = {0, 1, 2, 254, 255, 256, 257};
    uint8_t *at = sheet + 2 * random_below(r, (unsigned)length / 2);
    unsigned word = read_word(at);
    switch (random_below(r, 4)) {
    case 0:
        word += 1;
        break;
    case 1:
        word += 0xFFFF;
        break;
    case 2:
        word = edges[random_below(r, 7)];
        break;
    default:
        word = random_below(r, 0x10000);
    }
    write_word(at, word & 0xFFFF);
}

/* 254 is not used, and none is the smallest. */
static unsigned next_smaller_drop(unsigned drop)
{
    if (drop == ENDLESS)
        return 253;
    return drop == 0 || drop == NO_DROP ? NO_DROP : drop - 1;
}

/* One step up in one part of a normal effect. */
static struct effect step_up(struct random *r, struct effect e)
{
    unsigned bit = 1u << random_below(r, 16);
    switch (random_below(r, 3)) {
    case 0:
        e.cap += e.cap < ENDLESS ? 1 : 0;
        break;
    case 1:
        e.drop = next_smaller_drop(e.drop);
        break;
    default:
        e.keep_in |= one_in(r, 2) ? bit & e.keep_max : 0;
        e.keep_max |= bit;
    }
    return e;
}

static struct effect step_down(struct random *r, struct effect e)
{
    unsigned bit = 1u << random_below(r, 16);
    switch (random_below(r, 3)) {
    case 0:
        e.cap -= e.cap > 0 ? 1 : 0;
        break;
    case 1:
        e.drop = e.drop == NO_DROP ? 0 : drop_of(e.drop + 1);
        break;
    default:
        e.keep_max &= ~bit;
        e.keep_in &= ~bit;
    }
    if (e.cap == 0)
        e.drop = NO_DROP;
    return e;
}

static struct effect alter_effect(struct random *r, struct effect e)
{
    if (one_in(r, 6))
        return lowest();
    return one_in(r, 2) ? step_up(r, e) : step_down(r, e);
}

static void alter_block(struct random *r, struct shape s, uint8_t *sheet)
{
    unsigned block = random_below(r, block_count(s));
    unsigned type = random_below(r, s.types);
    struct effects e;
    if (!read_block(s, sheet, block, &e)) {
        for (unsigned t = 0; t < s.types; t++)
            e.of[t] = one_in(r, 2) ? lowest() : nothing_done();
    } else if (one_in(r, 6)) {
        blank_block(s, sheet, block);
        return;
    } else {
        e.of[type] = alter_effect(r, e.of[type]);
    }
    write_block(s, sheet, block, &e);
}

/* In one type, or in several. */
static void raise_block(struct random *r, struct shape s, uint8_t *sheet,
                        unsigned block)
{
    struct effects e;
    if (!read_block(s, sheet, block, &e))
        return;
    do {
        struct effect *one = &e.of[random_below(r, s.types)];
        *one = one_in(r, 3) ? grant(ALL_RIGHTS, ENDLESS) : step_up(r, *one);
    } while (one_in(r, 2));
    write_block(s, sheet, block, &e);
}

/* Any row that leaves a node of the kind that the rule is about, a call for
 * rules 7 and 9 and another for 3 and 4; or any row if there is none. */
static const uint16_t *row_for(struct random *r, const struct draft *d,
                               const struct draft_rows *rows, unsigned rule)
{
    unsigned row = random_below(r, rows->count);
    for (unsigned i = 0; i < rows->count; i++) {
        if ((d->node[rows->row[row][0]].kind == CALL) == (rule >= 7))
            break;
        row = (row + 1) % rows->count;
    }
    return rows->row[row];
}

/* A block that this rule may lead to; another if the graph has none. */
static unsigned target_of(struct random *r, const struct draft *d,
                          unsigned rule)
{
    struct shape s = draft_shape(d);
    const struct draft_node *call = &d->node[any_of_kind(r, d, CALL)];
    const struct draft_node *end = &d->node[any_of_kind(r, d, RETURN)];
    const struct draft_node *thrown = &d->node[any_of_kind(r, d, THROW)];
    switch (rule) {
    case 2:
        return node_block(s, d->entry[random_below(r, d->methods)]);
    case 3:
    case 7:
        if (d->flow.count > 0)
            return node_block(s, row_for(r, d, &d->flow, rule)[1]);
        break;
    case 4:
    case 9:
        if (d->catches.count > 0)
            return node_block(s, row_for(r, d, &d->catches, rule)[2]);
        break;
    case 5:
        return exit_block(end->method, 0);
    case 6:
        return exit_block(thrown->method, 1 + thrown->number);
    case 8:
        if (d->calls.count > 0)
            return stock_block(row_for(r, d, &d->calls, rule)[1]);
        break;
    case 10:
        return exit_block(call->method, 1 + thrown->number);
    default:
        break;
    }
    return stock_block(0);
}

/* One that has its mark, if a few tries find it. */
static unsigned marked_target_of(struct random *r, const struct draft *d,
                                 const uint8_t *sheet, unsigned rule)
{
    struct effects e;
    unsigned block = target_of(r, d, rule);
    for (unsigned tries = 8; tries > 0; tries--) {
        if (read_block(draft_shape(d), sheet, block, &e))
            break;
        block = target_of(r, d, rule);
    }
    return block;
}

/* Mostly of one rule, so that it is broken in several places. */
static void alter_targets(struct random *r, enum sheet_kind kind,
                          const struct draft *d, uint8_t *sheet)
{
    unsigned rule = 1 + random_below(r, RULES);
    for (unsigned targets = 1 + random_below(r, 6); targets > 0; targets--) {
        unsigned block = marked_target_of(r, d, sheet, rule);
        if (kind == MARKS_TAKEN || (kind == RAISED_AND_TAKEN && one_in(r, 2)))
            blank_block(draft_shape(d), sheet, block);
        else
            raise_block(r, draft_shape(d), sheet, block);
        if (one_in(r, 6))
            rule = 1 + random_below(r, RULES);
    }
}

static void mark_all_lowest(struct shape s, uint8_t *sheet)
{
    struct effects e;
    for (unsigned t = 0; t < s.types; t++)
        e.of[t] = lowest();
    for (unsigned block = 0; block < block_count(s); block++)
        write_block(s, sheet, block, &e);
}

size_t generate_wrong_length(struct random *r, size_t length)
{
    return one_in(r, 2) ? random_below(r, (unsigned)length)
                        : length + 1 + random_below(r, MOST_ADDED);
}

size_t generate_sheet(struct random *r, enum sheet_kind kind,
                      const struct draft *d, const uint8_t *given,
                      uint8_t *sheet)
{
    struct shape s = draft_shape(d);
    size_t length = sheet_bytes(s);
    memcpy(sheet, given, length);
    switch (kind) {
    case WORD_ALTERED:
        alter_word(r, sheet, length);
        break;
    case BLOCKS_ALTERED:
        for (unsigned blocks = 1 + random_below(r, 3); blocks > 0; blocks--)
            alter_block(r, s, sheet);
        break;
    case TARGETS_RAISED:
    case MARKS_TAKEN:
    case RAISED_AND_TAKEN:
        alter_targets(r, kind, d, sheet);
        break;
    case LOWEST:
        mark_all_lowest(s, sheet);
        break;
    case BLANK:
        memset(sheet, 0, length);
        break;
    case ANY_BYTES:
        random_fill(r, sheet, length);
        break;
    case WRONG_LENGTH:
        random_fill(r, sheet + length, MOST_ADDED);
        return generate_wrong_length(r, length);
    default:
        break;
    }
    return length;
}

size_t generate_wrong_area(struct random *r)
{
    static const size_t edges[6] = {0, 1, AREA_BYTES / 2, AREA_BYTES - 1,
                                    AREA_BYTES + 1, MOST_AREA};
    return one_in(r, 4) ? generate_wrong_length(r, AREA_BYTES)
                        : edges[random_below(r, 6)];
}

void generate_area(struct random *r, uint8_t *area, size_t length)
{
    static const uint8_t same[3] = {0, 1, 0xFF};
    random_fill(r, area, length);
    if (one_in(r, 4))
        memset(area, same[random_below(r, 3)], length);
}

struct lengths generate_sheets(struct random *r, unsigned count,
                               const struct draft *d, const uint8_t *given,
                               uint8_t *sheets)
{
    struct lengths lent = {0, 2 * count};
    for (unsigned i = 0; i < count; i++)
        lent.sheets += generate_sheet(r, random_below(r, WRONG_LENGTH), d,
                                      given, sheets + lent.sheets);
    return lent;
}

struct lengths generate_wrong_lengths(struct random *r, unsigned count,
                                      struct lengths right)
{
    size_t one = right.sheets / count;
    size_t part = 1 + random_below(r, (unsigned)one - 1);
    switch (random_below(r, 8)) {
    case 0:
        return (struct lengths){0, 0};
    case 1:
        return (struct lengths){(MOST_SHEETS + 1) * one, 2 * MOST_SHEETS + 2};
    case 2: /* the row is for the whole sheets, or for one more */
        return (struct lengths){right.sheets - part, right.row - 2};
    case 3:
        return (struct lengths){right.sheets - part, right.row};
    case 4:
        return (struct lengths){right.sheets + part, right.row};
    case 5: /* one number for each sheet */
        return (struct lengths){right.sheets, count};
    case 6:
        return (struct lengths){right.sheets - one, right.row};
    default:
        right.row += 1 + random_below(r, MOST_ROW);
        right.row %= MOST_ROW + 1;
        return right;
    }
}
