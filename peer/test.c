/* Tests the peer alone: effects against their meaning, document 01's figures,
 * families of exceptions, profiles, one engine against the other, check against
 * work out and against the rules word by word, lines, opening stocks, a lent
 * area, many sheets in one call, and the worked-out sheet against runs. Ends
 * with status 1 at the first thing that fails. */
#include "answer.h"
#include "effect.h"
#include "generate.h"
#include "opening.h"
#include "peer.h"
#include "rules.h"
#include "runs.h"
#include "tally.h"

#include <inttypes.h>
#include <stdio.h>
#include <stdlib.h>
#include <string.h>

enum { SEED = 2024, ROOM = MOST_SHEET_BYTES + MOST_ADDED };

static const struct sizes tiny = {3, 10, 2, 3, 3};
static const struct sizes small = {6, 30, 6, 255, 255};

static void expect(bool holds, const char *what, uint64_t number)
{
    if (holds)
        return;
    printf("failed: %s (%" PRIu64 ")\n", what, number);
    exit(1);
}

/* ---- Effects ---- */

static bool same_effect(struct effect a, struct effect b)
{
    return a.keep_in == b.keep_in && a.keep_max == b.keep_max
        && a.cap == b.cap && a.drop == b.drop;
}

/* An effect applied, straight from its meaning in document 01. */
static unsigned count_left(struct effect e, unsigned count)
{
    unsigned rest = count <= e.drop ? 0 : count - e.drop;
    if (count == ENDLESS)
        rest = ENDLESS;
    return e.drop == NO_DROP || e.cap < rest ? e.cap : rest;
}

static unsigned rights_left(struct effect e, unsigned rights)
{
    return (rights | e.keep_in) & e.keep_max;
}

static struct effect random_effect(struct random *r)
{
    static const unsigned edges[10] = {0,   1,   2,   3,   127,
                                       128, 252, 253, 255, 256};
    struct effect e;
    e.keep_max = random_below(r, 0x10000);
    e.keep_in = random_below(r, 0x10000) & e.keep_max;
    e.cap = random_below(r, 2) ? random_below(r, 256)
                               : edges[random_below(r, 9)];
    e.drop = random_below(r, 2) ? drop_of(random_below(r, 256))
                                : edges[random_below(r, 10)];
    if (e.cap == 0)
        e.drop = NO_DROP;
    return e;
}

static void test_pair(struct effect a, struct effect b, unsigned rights)
{
    struct effect sequence = then(a, b), lower = both(a, b);
    bool below = (a.keep_in & ~b.keep_in) == 0
              && (a.keep_max & ~b.keep_max) == 0;
    expect(is_normal(sequence) && is_normal(lower), "normal form", 0);
    for (unsigned count = 0; count <= 255; count++) {
        unsigned x = count_left(a, count), y = count_left(b, count);
        expect(count_left(sequence, count) == count_left(b, x), "then", count);
        expect(count_left(lower, count) == smaller(x, y), "both", count);
        below = below && x <= y;
        /* a stock is kept as the grant of it */
        struct effect stock = then(grant(rights, count), a);
        expect(same_effect(stock, grant(rights_left(a, rights), x)),
               "apply", count);
    }
    expect(rights_left(sequence, rights)
               == rights_left(b, rights_left(a, rights)), "then, rights", 0);
    expect(rights_left(lower, rights)
               == (rights_left(a, rights) & rights_left(b, rights)),
           "both, rights", 0);
    expect(at_most(a, b) == below, "at most", 0);
}

/* Every normal cap and drop, 1 to 255 times, against the repeated "then", and
 * that it falls. The rights are settled bit by bit: absent, kept, given. */
static void test_taken(void)
{
    for (unsigned cap = 0; cap <= 255; cap++)
        for (unsigned drop = 0; drop <= NO_DROP; drop++) {
            struct effect e = {0x0001, 0x0011, cap, drop};
            struct effect power = e;
            for (unsigned k = 1; k <= 255 && is_normal(e); k++) {
                expect(same_effect(taken(e, k), power), "taken", k);
                expect(at_most(then(power, e), power), "falls", k);
                power = then(power, e);
            }
        }
}

static void test_effects(void)
{
    const unsigned pairs = 200000;
    struct random r = random_of(SEED, 0);
    for (unsigned i = 0; i < pairs; i++) {
        struct effect a = random_effect(&r), b = random_effect(&r);
        test_pair(a, b, random_below(&r, 0x10000));
        test_pair(both(a, b), a, random_below(&r, 0x10000));
    }
    test_taken();
    printf("effects: %u pairs on every count, taken 1 to 255 times\n",
           2 * pairs);
}

static struct effect counts(unsigned cap, unsigned drop)
{
    return (struct effect){0, ALL_RIGHTS, cap, drop};
}

static void test_k4_to_k8(void)
{
    struct effect k6 = both(grant(0x0101, 3), nothing_done());
    struct effect k8 = then(grant(0x0101, 2), then(draw(), draw()));
    expect(then(counts(255, 200), counts(255, 100)).drop == 255, "K4", 0);
    expect(then(counts(255, 253), counts(255, 1)).drop == 255, "K5", 0);
    expect(same_effect(k6, (struct effect){0, 0x0101, 3, 0}), "K6", 0);
    expect(at_most(counts(0, NO_DROP), counts(5, 9)), "K7", 0);
    expect(!at_most(counts(5, 9), counts(0, NO_DROP)), "K7 reversed", 0);
    expect(k8.cap == 0 && k8.drop == NO_DROP, "K8", 0);
}

/* ---- Work out and check on one file ---- */

/* Of the exact length, so that a sanitizer sees a step outside. */
static uint8_t *copy_of(const uint8_t *bytes, size_t length)
{
    uint8_t *copy = malloc(length > 0 ? length : 1);
    expect(copy != NULL, "memory", length);
    memcpy(copy, bytes, length);
    return copy;
}

/* The line of the node that an answer names, if it names one. */
static unsigned line_due(const uint8_t *graph, size_t length, uint64_t answer)
{
    unsigned number = number_in(answer), node = place_in(answer);
    if (number != 5 && number != 13 && number != 14 && number != 17)
        return 0;
    struct shape s = shape_of(graph, length);
    expect(node < s.nodes, "place of a node", node);
    return read_word(graph + 2 * s.methods + 8 * node + 6);
}

static uint64_t expect_line(const uint8_t *graph, size_t length,
                            uint64_t answer)
{
    expect(packed_line(without_line(answer), line_due(graph, length, answer))
               == answer, "line", answer);
    return answer;
}

static uint64_t check(const uint8_t *graph, size_t length,
                      const uint8_t *sheet, size_t sheet_len)
{
    uint8_t *lent_graph = copy_of(graph, length);
    uint8_t *lent_sheet = copy_of(sheet, sheet_len);
    uint64_t answer = peer_check(lent_graph, length, lent_sheet, sheet_len);
    free(lent_graph);
    free(lent_sheet);
    return expect_line(graph, length, answer);
}

/* Works out by both engines, which must agree, and has check look at it. */
static uint64_t work_out(const uint8_t *graph, size_t length, uint8_t *sheet,
                         size_t sheet_len)
{
    uint8_t *lent = copy_of(graph, length);
    uint8_t *swept = copy_of(sheet, sheet_len);
    uint8_t *listed = copy_of(sheet, sheet_len);
    uint64_t answer = peer_work_out(lent, length, listed, sheet_len);
    expect(peer_work_out_sweeping(lent, length, swept, sheet_len) == answer,
           "both engines answer the same", answer);
    expect(memcmp(listed, swept, sheet_len) == 0, "both write the same", 0);
    expect(check(graph, length, listed, sheet_len) == answer,
           "check answers the same", answer);
    if (!is_verdict(answer))
        expect(memcmp(listed, sheet, sheet_len) == 0, "untouched", answer);
    memcpy(sheet, listed, sheet_len);
    free(lent);
    free(swept);
    free(listed);
    return answer;
}

static uint64_t work_out_draft(const struct draft *d, uint8_t *sheet)
{
    uint8_t graph[MOST_GRAPH_BYTES];
    size_t length = draft_write(d, graph);
    size_t sheet_len = sheet_bytes(draft_shape(d));
    memset(sheet, 0xA5, sheet_len);
    return work_out(graph, length, sheet, sheet_len);
}

/* The stock of a reached node; false if it is not reached. */
static bool stock_at(const struct draft *d, const uint8_t *sheet,
                     unsigned node, struct effects *stock)
{
    struct shape s = draft_shape(d);
    struct effects e;
    if (!read_block(s, sheet, stock_block(d->node[node].method), stock)
        || !read_block(s, sheet, node_block(s, node), &e))
        return false;
    for (unsigned t = 0; t < s.types; t++)
        stock->of[t] = then(stock->of[t], e.of[t]);
    return true;
}

/* An answer whose place is a node. */
static uint64_t at_node(const struct draft *d, uint64_t answer)
{
    return packed_line(answer, d->node[place_in(answer)].line);
}

/* ---- Calls to nobody ---- */

/* Answer 17 if it applies to this graph, else 0. */
static uint64_t lost_call(const struct draft *d)
{
    unsigned node = draft_lost_call(d);
    return node < MOST_NODES ? at_node(d, packed(17, node)) : 0;
}

/* What a generated graph may be answered. */
static bool is_due(const struct draft *d, uint64_t answer)
{
    uint64_t lost = lost_call(d);
    return lost != 0 ? answer == lost : is_verdict(answer);
}

/* A call for each node, each with a row, of a method that is the last one's. */
static void draft_calls_only(struct draft *d)
{
    draft_start(d, 1);
    unsigned m = draft_method(d);
    for (unsigned n = 0; n < MOST_NODES; n++)
        draft_callee(d, draft_call(d, m, 1), m);
}

static void test_calls_to_nobody(struct draft *d, uint8_t *sheet)
{
    draft_file_a(d, 2, 2);
    unsigned last = draft_call(d, 0, 1);
    expect(work_out_draft(d, sheet) == packed(17, last), "last node", 0);
    draft_take_out(&d->calls, 1);
    expect(work_out_draft(d, sheet) == packed(17, 1), "two calls", 0);
    draft_callee(d, last, 1);
    expect(work_out_draft(d, sheet) == packed(17, 1), "another has a row", 0);
    d->opening_count[0] = 256;
    expect(work_out_draft(d, sheet) == packed(17, 1), "before 9", 0);
    draft_catch(d, 0, 3, 2);
    expect(work_out_draft(d, sheet) == packed(8, 0), "after 8", 0);
    draft_file_a(d, 2, 2);
    unsigned never = draft_call(d, draft_method(d), 1);
    expect(work_out_draft(d, sheet) == packed(17, never), "never called", 0);
    draft_calls_only(d);
    expect(work_out_draft(d, sheet) == 0, "512 calls with rows", 0);
    draft_take_out(&d->calls, MOST_NODES - 1);
    expect(work_out_draft(d, sheet) == packed(17, MOST_NODES - 1),
           "the last of 512", 0);
}

/* ---- Document 01's figures ---- */

static void test_file_a(struct draft *d, uint8_t *sheet)
{
    static const uint8_t written[86] = {
        0, 0, 3, 0,
        0, 1, 0, 2, 1, 1, 0, 0, 0, 3, 0, 2, 0, 0, 0, 0,
        0, 4, 0, 0, 0, 0, 0, 0, 1, 2, 0, 0, 1, 1, 0, 0,
        1, 4, 0, 0, 0, 0, 0, 0,
        0, 0, 1, 0, 1, 0, 2, 0, 3, 0, 4, 0,
        1, 0, 1, 0,
        255, 255, 255, 255, 255, 255, 255, 255,
        0, 0, 0, 0,
        2, 0, 5, 0, 3, 0, 1, 0, 0, 0, 1, 0, 0x48, 0};
    static const unsigned listed[5][2] = {
        {0x0000, 0}, {0x0101, 2}, {0x0101, 0}, {0x0101, 1}, {0x0101, 0}};
    uint8_t graph[MOST_GRAPH_BYTES];
    struct effects stock;
    draft_file_a(d, 2, 2);
    expect(draft_write(d, graph) == sizeof written, "length of file A", 0);
    expect(memcmp(graph, written, sizeof written) == 0, "file A", 0);
    expect(work_out_draft(d, sheet) == 0, "K1", 0);
    for (unsigned n = 0; n < 5; n++) {
        expect(stock_at(d, sheet, n, &stock), "listed", n);
        expect(stock.of[0].keep_max == listed[n][0]
                   && stock.of[0].cap == listed[n][1], "as listed", n);
    }
    draft_file_a(d, 2, 3);
    expect(work_out_draft(d, sheet) == packed(13, 3), "K2", 0);
    d->node[3].line = 0xABCD;
    expect(work_out_draft(d, sheet) == 0xABCD000003000D, "K2 with a line", 0);
    draft_file_a(d, 255, 255);
    expect(work_out_draft(d, sheet) == 0, "K3", 0);
}

/* One method that grants and then draws, the draw without a flow row. */
static uint64_t grant_then_draw(struct draft *d, uint8_t *sheet, unsigned count,
                                unsigned rights, unsigned drawn)
{
    draft_start(d, 1);
    unsigned m = draft_method(d);
    unsigned first = draft_grant(d, m, 0, count, rights);
    draft_flow(d, first, draft_draw(d, m, 0, drawn));
    return work_out_draft(d, sheet);
}

static void test_k9_to_k11(struct draft *d, uint8_t *sheet)
{
    struct effects stock;
    expect(grant_then_draw(d, sheet, 0, 0x0101, 0x0101) == packed(13, 1),
           "K9", 0);
    expect(grant_then_draw(d, sheet, 9, 0x0101, 0x0301) == packed(13, 1),
           "K10", 0);
    expect(grant_then_draw(d, sheet, 1, 0x0301, 0x0101) == 0, "covered", 0);
    draft_start(d, 1);
    unsigned main = draft_method(d), endless = draft_method(d);
    unsigned call = draft_call(d, main, 1);
    unsigned drawn = draft_draw(d, main, 0, 0x0101);
    unsigned loop = draft_node(d, endless, PLAIN);
    draft_flow(d, call, drawn);
    draft_flow(d, loop, loop);
    draft_callee(d, call, endless);
    expect(work_out_draft(d, sheet) == 0, "K11", 0);
    expect(!stock_at(d, sheet, drawn, &stock), "K11 not reached", 0);
}

static void test_refusals(struct draft *d, uint8_t *sheet)
{
    /* from before there were parents and lines */
    static const uint8_t old[68] = {
        0, 0, 3, 0,
        0, 1, 0, 2, 1, 1, 0, 3, 0, 2, 0, 0, 0, 4, 0, 0, 0, 0,
        1, 2, 0, 0, 1, 1, 1, 4, 0, 0, 0, 0,
        0, 0, 1, 0, 1, 0, 2, 0, 3, 0, 4, 0,
        1, 0, 1, 0,
        0, 0, 0, 0,
        2, 0, 5, 0, 3, 0, 1, 0, 0, 0, 1, 0, 0x36, 0};
    uint8_t graph[MOST_GRAPH_BYTES];
    draft_file_a(d, 2, 2);
    size_t length = draft_write(d, graph), len = sheet_bytes(draft_shape(d));
    uint8_t *trailer = graph + draft_table_at(d, TABLES);
    expect(work_out(old, sizeof old, sheet, len) == packed(3, 0), "old file A",
           0);
    expect(work_out(graph, 13, sheet, len) == packed(1, 0), "13 bytes", 0);
    write_word(trailer + 2 * NODES, 0);
    expect(work_out(graph, length, sheet, len) == packed(2, 1), "N = 0", 0);
    write_word(trailer + 2 * NODES, 513);
    expect(work_out(graph, length, sheet, len) == packed(2, 1), "N = 513", 0);
    write_word(trailer + 2 * NODES, 5);
    write_word(trailer + 2 * OPENING, 7);
    expect(work_out(graph, length, sheet, len) == packed(2, 5), "T = 7", 0);
    write_word(trailer + 2 * OPENING, 1);
    write_word(trailer + 2 * TABLES, (unsigned)length - TRAILER_BYTES + 1);
    expect(work_out(graph, length, sheet, len) == packed(3, 0), "distance", 0);
    write_word(trailer + 2 * TABLES, (unsigned)length - TRAILER_BYTES);
    expect(work_out(graph, length, sheet, len + 2) == packed(10, 0),
           "sheet too long", 0);
    for (unsigned exception = 7; exception <= 8; exception++) {
        draft_start(d, 1);
        draft_throw(d, draft_method(d), exception);
        expect(work_out_draft(d, sheet) == (exception == 8 ? 5 : 0),
               "exception", exception);
    }
}

/* What is put at one byte of a row, and what is then answered. */
struct damage {
    enum table table;
    unsigned row, byte, value, number, place;
};

static void test_places_of_refusals(struct draft *d, uint8_t *sheet)
{
    static const struct damage damaged[] = {
        {METHODS, 1, 0, 0, 4, 1},  /* entry in another method */
        {METHODS, 1, 0, 5, 4, 1},  /* entry N */
        {NODES, 4, 1, 6, 5, 4},    /* kind */
        {NODES, 1, 3, 0, 5, 1},    /* no repeats */
        {NODES, 2, 4, 1, 5, 2},    /* return with rights */
        {FLOW, 2, 2, 1, 6, 2},     /* flow into another method */
        {FLOW, 1, 0, 2, 6, 1},     /* flow from a return */
        {CALLS, 0, 0, 0, 7, 0},    /* calls from a grant */
        {CALLS, 0, 2, 2, 7, 0},    /* method M called */
        {OPENING, 0, 3, 1, 9, 0}}; /* opening count 256 */
    uint8_t graph[MOST_GRAPH_BYTES];
    draft_file_a(d, 2, 2);
    for (unsigned n = 0; n < d->nodes; n++)
        d->node[n].line = (uint16_t)(0xFFFF - n);
    size_t length = draft_write(d, graph), len = sheet_bytes(draft_shape(d));
    for (unsigned i = 0; i < sizeof damaged / sizeof damaged[0]; i++) {
        const struct damage *a = &damaged[i];
        uint64_t refusal = packed(a->number, a->place);
        size_t at = draft_table_at(d, a->table)
                  + a->row * row_bytes[a->table] + a->byte;
        uint8_t before = graph[at];
        graph[at] = (uint8_t)a->value;
        expect(work_out(graph, length, sheet, len)
                   == (a->table == NODES ? at_node(d, refusal) : refusal),
               "refused", i);
        graph[at] = before;
    }
    uint8_t *flow = graph + draft_table_at(d, FLOW);
    memcpy(flow + row_bytes[FLOW], flow, row_bytes[FLOW]);
    expect(work_out(graph, length, sheet, len) == packed(6, 1),
           "flow row twice", 0);
    draft_catch(d, 1, 7, 2);
    expect(work_out_draft(d, sheet) == 0, "catch row for 7", 0);
    draft_catch(d, 1, 8, 2);
    expect(work_out_draft(d, sheet) == packed(8, 1), "catch row for 8", 0);
    draft_start(d, 1);
    unsigned thrown = draft_throw(d, draft_method(d), 3);
    draft_catch(d, thrown, 3, thrown);
    expect(work_out_draft(d, sheet) == 0, "the throw's exception", 0);
    draft_catch(d, thrown, 4, thrown);
    expect(work_out_draft(d, sheet) == packed(8, 1), "another exception", 0);
}

/* What is put at one word of a sheet, and what is then answered, with type
 * 0. */
struct alteration {
    unsigned at, value, number, place;
};

/* In file A's sheet node n's block starts at word 96 + 5n, method 1's at 48. */
static void test_places_of_check(struct draft *d, uint8_t *sheet)
{
    static const struct alteration altered[] = {
        {106, 2, 11, 106},   /* mark 2 */
        {106, 0, 11, 106},   /* unmarked, words not 0 */
        {9, 1, 11, 8},       /* the same in exit 1 of method 0 */
        {50, 256, 11, 48},   /* count of a stock */
        {115, 254, 11, 111}, /* drop 254 */
        {115, 257, 11, 111}, /* drop above none */
        {2, 1, 12, 1},       /* more than the opening stock */
        {104, 3, 12, 3},     /* more than granted, at the call */
        {55, 0, 12, 5},      /* exit 0 of method 1 without its drop */
        {109, 1, 12, 7},     /* more after the rounds */
        {50, 2, 12, 8},      /* more for the second round */
        {50, 0, 13, 3}};     /* obeys, but is too low */
    uint8_t graph[MOST_GRAPH_BYTES];
    draft_file_a(d, 2, 2);
    size_t length = draft_write(d, graph), len = sheet_bytes(draft_shape(d));
    expect(work_out_draft(d, sheet) == 0, "file A", 0);
    for (unsigned i = 0; i < sizeof altered / sizeof altered[0]; i++) {
        const struct alteration *a = &altered[i];
        unsigned before = read_word(sheet + 2 * a->at);
        write_word(sheet + 2 * a->at, a->value);
        expect(check(graph, length, sheet, len)
                   == packed(a->number, a->place), "sheet altered", i);
        write_word(sheet + 2 * a->at, before);
    }
    write_word(sheet + 2 * 50, 3); /* breaks rule 8 at node 1 */
    write_word(sheet + 2 * 55, 0); /* and rule 5 at node 4 */
    expect(check(graph, length, sheet, len) == packed(12, 5), "two rules", 0);
}

/* Nodes 1 and 2 and the call 3 follow node 0, nodes 4 and 5 follow the call, 6
 * and 7 handle two exceptions of it, 8 is the return. The method called draws
 * in type 3. */
static void draft_places(struct draft *d)
{
    static const uint8_t flow[9][2] = {{0, 1}, {0, 2}, {0, 3}, {1, 8}, {3, 4},
                                       {3, 5}, {9, 10}, {9, 12}, {9, 13}};
    draft_start(d, MOST_TYPES);
    unsigned main = draft_method(d), called = draft_method(d);
    for (unsigned n = 0; n < 9; n++)
        draft_node(d, main, n == 8 ? RETURN : PLAIN);
    d->node[3].kind = CALL;
    d->node[3].count = 3;
    draft_node(d, called, PLAIN);
    unsigned drawn = draft_draw(d, called, 3, 0);
    draft_flow(d, drawn, draft_node(d, called, RETURN));
    draft_throw(d, called, 2);
    draft_throw(d, called, 5);
    draft_callee(d, 3, called);
    draft_catch(d, 3, 2, 6);
    draft_catch(d, 3, 5, 7);
    for (unsigned row = 0; row < 9; row++)
        draft_flow(d, flow[row][0], flow[row][1]);
    for (unsigned t = 0; t < MOST_TYPES; t++)
        d->opening_count[t] = 10;
}

/* A block raised in one type, or without its mark. */
struct change {
    unsigned block, type;
};

static void change_block(struct shape s, uint8_t *sheet, struct change c)
{
    struct effects e;
    if (c.type == MARK_MISSING) {
        blank_block(s, sheet, c.block);
    } else if (read_block(s, sheet, c.block, &e)) {
        e.of[c.type] = grant(ALL_RIGHTS, ENDLESS);
        write_block(s, sheet, c.block, &e);
    }
}

static void test_types_of_check(struct draft *d, uint8_t *worked)
{
    enum { NODE = 2 * METHOD_BLOCKS, STOCK_1 = METHOD_BLOCKS, RETURN_0 = 1 };
    static const struct {
        struct change change[2];
        unsigned rule, type;
    } altered[] = {
        /* in one place, and in two */
        {{{NODE + 1, 4}, {NODE + 1, 1}}, 3, 1},
        {{{NODE + 1, 4}, {NODE + 2, 1}}, 3, 1},
        {{{NODE + 1, 1}, {NODE + 2, 4}}, 3, 1},
        /* a missing mark beside a type, and two of them */
        {{{NODE + 1, MARK_MISSING}, {NODE + 2, 5}}, 3, 5},
        {{{NODE + 1, 5}, {NODE + 2, MARK_MISSING}}, 3, 5},
        {{{NODE + 1, MARK_MISSING}, {NODE + 2, MARK_MISSING}}, 3, MARK_MISSING},
        /* the lower rule first, whatever the types */
        {{{NODE + 1, 5}, {RETURN_0, 0}}, 3, 5},
        {{{NODE + 1, MARK_MISSING}, {RETURN_0, 0}}, 3, MARK_MISSING},
        {{{NODE + 7, 0}, {NODE + 5, 2}}, 7, 2},
        {{{0, 5}, {NODE, 0}}, 1, 5},
        /* the second of two flow rows of a call */
        {{{NODE + 4, 2}, {NODE + 5, 1}}, 7, 1},
        {{{NODE + 4, MARK_MISSING}, {NODE + 5, 1}}, 7, 1},
        /* two exceptions */
        {{{NODE + 6, 4}, {NODE + 7, 3}}, 9, 3},
        {{{NODE + 6, 3}, {NODE + 7, 4}}, 9, 3},
        {{{STOCK_1, 5}, {STOCK_1, 4}}, 8, 4}};
    uint8_t graph[MOST_GRAPH_BYTES], sheet[ROOM];
    draft_places(d);
    struct shape s = draft_shape(d);
    size_t length = draft_write(d, graph), len = sheet_bytes(s);
    expect(work_out_draft(d, worked) == 0, "several places", 0);
    for (unsigned i = 0; i < sizeof altered / sizeof altered[0]; i++) {
        memcpy(sheet, worked, len);
        change_block(s, sheet, altered[i].change[0]);
        change_block(s, sheet, altered[i].change[1]);
        expect(check(graph, length, sheet, len)
                   == packed_type(12, altered[i].type, altered[i].rule),
               "type of 12", i);
    }
    /* enough for two rounds, but not for the third */
    write_word(worked + 2 * (block_at(s, STOCK_1) + 1 + 2 * 3 + 1), 9);
    expect(check(graph, length, worked, len) == packed_type(12, 3, 8),
           "rule 8 in the last round", 0);
    draft_file_a(d, 2, 2);
    length = draft_write(d, graph);
    expect(work_out_draft(d, sheet) == 0, "one type", 0);
    blank_block(draft_shape(d), sheet, NODE + 2);
    expect(check(graph, length, sheet, sheet_bytes(draft_shape(d)))
               == packed_type(12, 6, 7), "a mark alone, of one type", 0);
}

/* The second of two draws is not covered. */
static void test_type_of_overdrawn(struct draft *d, uint8_t *sheet)
{
    draft_start(d, 4);
    d->opening_count[1] = 1;
    unsigned m = draft_method(d);
    unsigned first = draft_draw(d, m, 1, 0);
    draft_flow(d, first, draft_draw(d, m, 3, 0));
    expect(work_out_draft(d, sheet) == 13 + 256 * 3 + 65536 * 1, "type of 13",
           0);
}

static uint64_t draw_on_a_loop(struct draft *d, uint8_t *sheet, unsigned count)
{
    draft_start(d, 1);
    unsigned drawn = draft_draw(d, draft_method(d), 0, 0);
    draft_flow(d, drawn, drawn);
    d->opening_count[0] = (uint16_t)count;
    return work_out_draft(d, sheet);
}

/* A call whose method draws, then returns or throws to a draw at the caller. */
static uint64_t throw_after_rounds(struct draft *d, uint8_t *sheet,
                                   unsigned repeats)
{
    draft_start(d, 1);
    d->opening_count[0] = 2;
    unsigned main = draft_method(d), called = draft_method(d);
    unsigned call = draft_call(d, main, repeats);
    unsigned caught = draft_draw(d, main, 0, 0);
    unsigned drawn = draft_draw(d, called, 0, 0);
    draft_callee(d, call, called);
    draft_flow(d, drawn, draft_node(d, called, RETURN));
    draft_flow(d, drawn, draft_throw(d, called, 3));
    draft_catch(d, call, 3, caught);
    return work_out_draft(d, sheet);
}

/* A grant of 0 behind a call that never returns, before a covered draw. */
static uint64_t grant_not_reached(struct draft *d, uint8_t *sheet)
{
    draft_start(d, 1);
    d->opening_count[0] = 1;
    unsigned main = draft_method(d), endless = draft_method(d);
    unsigned start = draft_node(d, main, PLAIN);
    unsigned call = draft_call(d, main, 1);
    unsigned revoke = draft_grant(d, main, 0, 0, 0);
    unsigned drawn = draft_draw(d, main, 0, 0);
    draft_node(d, endless, PLAIN);
    draft_flow(d, start, call);
    draft_flow(d, start, drawn);
    draft_flow(d, call, revoke);
    draft_flow(d, revoke, drawn);
    draft_callee(d, call, endless);
    return work_out_draft(d, sheet);
}

static void test_figures(struct draft *d, uint8_t *sheet)
{
    test_k4_to_k8();
    test_file_a(d, sheet);
    test_k9_to_k11(d, sheet);
    test_refusals(d, sheet);
    test_places_of_refusals(d, sheet);
    test_places_of_check(d, sheet);
    test_types_of_check(d, sheet);
    test_type_of_overdrawn(d, sheet);
    test_calls_to_nobody(d, sheet);
    expect(draw_on_a_loop(d, sheet, 255) == 0, "loop on endless", 0);
    expect(draw_on_a_loop(d, sheet, 254) == packed(13, 0), "loop on 254", 0);
    expect(throw_after_rounds(d, sheet, 1) == 0, "throw in round 1", 0);
    expect(throw_after_rounds(d, sheet, 2) == packed(13, 1),
           "throw in round 2", 0);
    expect(grant_not_reached(d, sheet) == 0, "unreached grant 0", 0);
    printf("figures: K1 to K11, the run-only ones, errors that look right, "
           "places and types of answers\n");
}

/* ---- Families of exceptions ---- */

/* Exception 7 comes to node 0, which throws it or calls a method that does.
 * Its ancestors are all the others, from 6 up to 0. */
static void draft_chain(struct draft *d, bool calls)
{
    draft_start(d, 1);
    for (unsigned e = 1; e < EXCEPTIONS; e++)
        d->parent[e] = (uint8_t)(e - 1);
    unsigned main = draft_method(d);
    if (!calls) {
        draft_throw(d, main, 7);
        return;
    }
    unsigned called = draft_method(d);
    draft_callee(d, draft_call(d, main, 1), called);
    draft_throw(d, called, 7);
}

static bool is_marked(const struct draft *d, const uint8_t *sheet,
                      unsigned block)
{
    struct effects e;
    return read_block(draft_shape(d), sheet, block, &e);
}

/* A handler for one kind after the other, from far to near: the last one is
 * reached and the others are not. */
static void test_nearest_handler(struct draft *d, uint8_t *sheet, bool calls)
{
    static const unsigned kinds[4] = {0, 3, 5, 7};
    struct effects stock;
    unsigned handler[4];
    draft_chain(d, calls);
    expect(work_out_draft(d, sheet) == 0, "chain", 0);
    for (unsigned e = 0; e < EXCEPTIONS; e++)
        expect(is_marked(d, sheet, exit_block(0, 1 + e)) == (e == 7),
               "leaves as what it is", e);
    for (unsigned i = 0; i < 4; i++) {
        handler[i] = draft_node(d, 0, PLAIN);
        draft_catch(d, 0, kinds[i], handler[i]);
        expect(work_out_draft(d, sheet) == 0, "chain", i);
        for (unsigned j = 0; j <= i; j++)
            expect(stock_at(d, sheet, handler[j], &stock) == (j == i),
                   "nearest handler", j);
        expect(!is_marked(d, sheet, exit_block(0, 1 + 7)), "caught", i);
    }
}

/* The exception passes a call without a row and is caught one further out, by
 * a row for its parent. */
static void test_passing_exception(struct draft *d, uint8_t *sheet)
{
    struct effects stock;
    draft_start(d, 1);
    d->parent[5] = 2;
    unsigned outer = draft_method(d), middle = draft_method(d);
    unsigned inner = draft_method(d);
    unsigned first = draft_call(d, outer, 1);
    unsigned handler = draft_node(d, outer, PLAIN);
    draft_callee(d, first, middle);
    draft_callee(d, draft_call(d, middle, 1), inner);
    draft_throw(d, inner, 5);
    draft_catch(d, first, 2, handler);
    expect(work_out_draft(d, sheet) == 0, "passing", 0);
    expect(stock_at(d, sheet, handler, &stock), "caught further out", 0);
    expect(is_marked(d, sheet, exit_block(middle, 1 + 5)), "own kind", 0);
    expect(!is_marked(d, sheet, exit_block(middle, 1 + 2)), "parent's", 0);
}

/* Which catch rows a throw of 3 may have, where 1 is the parent of 3 and 4, 0
 * of 1, and 3 of 6. */
static void test_kin(struct draft *d, uint8_t *sheet)
{
    static const bool is_kin[EXCEPTIONS] = {[0] = true, [1] = true, [3] = true};
    for (unsigned e = 0; e < EXCEPTIONS; e++) {
        draft_start(d, 1);
        d->parent[1] = 0;
        d->parent[3] = d->parent[4] = 1;
        d->parent[6] = 3;
        unsigned thrown = draft_throw(d, draft_method(d), 3);
        draft_catch(d, thrown, e, thrown);
        expect(work_out_draft(d, sheet) == (is_kin[e] ? 0 : packed(8, 0)),
               "row for kin", e);
    }
}

static void test_bad_parents(struct draft *d, uint8_t *sheet)
{
    for (unsigned e = 0; e < EXCEPTIONS; e++) {
        const unsigned bad[4] = {e, e + 1, 8, 254};
        draft_file_a(d, 2, 2);
        for (unsigned i = 0; i < 4; i++) {
            d->parent[e] = (uint8_t)bad[i];
            expect(work_out_draft(d, sheet) == packed(15, e), "bad parent", i);
        }
        d->parent[7] = 7;
        expect(work_out_draft(d, sheet) == packed(15, e), "the lowest", e);
    }
    draft_catch(d, 0, 3, 2);
    expect(work_out_draft(d, sheet) == packed(15, 7), "before 8", 0);
    d->parent[7] = 6;
    expect(work_out_draft(d, sheet) == packed(8, 0), "mended", 0);
    draft_file_a(d, 2, 2);
    d->parent[0] = 0;
    draft_take_out(&d->calls, 1);
    expect(work_out_draft(d, sheet) == packed(15, 0), "before 17", 0);
    draft_callee(d, 1, 2);
    expect(work_out_draft(d, sheet) == packed(7, 0), "after 7", 0);
}

static void test_longest_file(struct draft *d)
{
    draft_start(d, MOST_TYPES);
    d->methods = MOST_METHODS;
    d->nodes = MOST_NODES;
    d->flow.count = MOST_FLOW;
    d->calls.count = MOST_CALLS;
    d->catches.count = MOST_CATCHES;
    expect(draft_table_at(d, TABLES) + TRAILER_BYTES == MOST_GRAPH_BYTES,
           "longest file", draft_table_at(d, TABLES));
}

static bool same_rows(const struct draft_rows *a, const struct draft_rows *b)
{
    return a->count == b->count
        && memcmp(a->row, b->row, a->count * sizeof a->row[0]) == 0;
}

/* The same graph without parents: each exception has the rows that apply. */
static void draft_without_families(const struct draft *d, struct draft *alone)
{
    *alone = *d;
    memset(alone->parent, NO_PARENT, sizeof alone->parent);
    alone->catches.count = 0;
    for (unsigned row = 0; row < d->catches.count; row++) {
        const uint16_t *c = d->catches.row[row];
        const struct draft_node *from = &d->node[c[0]];
        for (unsigned e = 0; e < EXCEPTIONS; e++)
            if ((from->kind == CALL || from->number == e)
                && draft_caught_as(d, c[0], e) == c[1])
                draft_catch(alone, c[0], e, c[2]);
    }
}

static void test_families(unsigned cases, struct draft *d, uint8_t *sheet)
{
    static struct draft alone;
    uint8_t plain[ROOM];
    unsigned long differ = 0;
    test_nearest_handler(d, sheet, false);
    test_nearest_handler(d, sheet, true);
    test_passing_exception(d, sheet);
    test_kin(d, sheet);
    test_bad_parents(d, sheet);
    test_longest_file(d);
    for (unsigned i = 0; i < cases; i++) {
        struct random r = random_of(SEED + 6, i);
        generate_graph(&r, &small, d);
        draft_without_families(d, &alone);
        expect(work_out_draft(d, sheet) == work_out_draft(&alone, plain),
               "the same answer without parents", i);
        expect(memcmp(sheet, plain, sheet_bytes(draft_shape(d))) == 0,
               "the same sheet without parents", i);
        differ += !same_rows(&d->catches, &alone.catches);
    }
    printf("families: figures, and %u graphs, in %lu of which rows apply to "
           "other exceptions or are dead\n", cases, differ);
}

/* ---- Profiles ---- */

/* The request's words, node by node. */
static bool breaks_one_shot(const struct draft *d, unsigned node)
{
    const struct draft_node *drawn = &d->node[node];
    if (drawn->kind != DRAW)
        return false;
    for (unsigned m = 0; m < d->methods; m++)
        if (d->entry[m] == node)
            return true;
    for (unsigned row = 0; row < d->catches.count; row++)
        if (d->catches.row[row][2] == node)
            return true;
    for (unsigned row = 0; row < d->flow.count; row++) {
        const struct draft_node *from = &d->node[d->flow.row[row][0]];
        bool asks = from->kind == GRANT && from->number == drawn->number
                 && (from->rights | drawn->rights) == from->rights
                 && from->count == 1;
        if (d->flow.row[row][1] == node && !asks)
            return true;
    }
    return false;
}

static bool breaks_session(const struct draft *d, unsigned node)
{
    const struct draft_node *n = &d->node[node];
    for (unsigned row = 0; row < d->calls.count; row++)
        if (d->calls.row[row][0] == node && d->calls.row[row][1] == 0)
            return true;
    return n->kind == GRANT && (n->method != 0 || n->count != 255);
}

/* What the profile answers, calls to nobody first. */
static uint64_t lowest_that(bool breaks(const struct draft *, unsigned),
                            const struct draft *d)
{
    if (lost_call(d) != 0)
        return lost_call(d);
    for (unsigned node = 0; node < d->nodes; node++)
        if (breaks(d, node))
            return at_node(d, packed(14, node));
    return 0;
}

/* Answers what one-shot does; a graph that fits it must pass. */
static uint64_t test_profiles_of(const struct draft *d, uint8_t *sheet,
                                 struct tally *seen)
{
    uint8_t graph[MOST_GRAPH_BYTES];
    size_t length = draft_write(d, graph);
    uint8_t *lent = copy_of(graph, length);
    uint64_t one_shot = peer_one_shot(lent, length);
    uint64_t session = peer_session(lent, length);
    free(lent);
    expect(one_shot == lowest_that(breaks_one_shot, d), "one-shot", one_shot);
    expect(session == lowest_that(breaks_session, d), "session", session);
    tally_note(&seen[0], one_shot);
    tally_note(&seen[1], session);
    if (one_shot == 0)
        expect(work_out_draft(d, sheet) == 0, "fits, so passes", 0);
    return one_shot;
}

/* A grant at the entry, node 0, before a draw of type 1 with rights 0101h, node
 * 1, which nothing else leads to. */
static void draft_one_use(struct draft *d, unsigned type, unsigned count,
                          unsigned rights)
{
    draft_start(d, 2);
    unsigned m = draft_method(d);
    unsigned asked = draft_grant(d, m, type, count, rights);
    draft_flow(d, asked, draft_draw(d, m, 1, 0x0101));
}

static void expect_profiles(const struct draft *d, uint64_t one_shot,
                            uint64_t session, const char *what)
{
    uint8_t graph[MOST_GRAPH_BYTES];
    size_t length = draft_write(d, graph);
    expect(peer_one_shot(graph, length) == one_shot, what, 1);
    expect(peer_session(graph, length) == session, what, 2);
}

static void test_one_shot_figures(struct draft *d)
{
    const uint64_t grant_unfit = packed(14, 0), draw_unfit = packed(14, 1);
    draft_one_use(d, 1, 1, 0x0301);
    expect_profiles(d, 0, grant_unfit, "rights contain the draw's");
    draft_one_use(d, 1, 2, 0x0101);
    expect_profiles(d, draw_unfit, grant_unfit, "count 2");
    draft_one_use(d, 1, 255, 0x0101);
    expect_profiles(d, draw_unfit, 0, "endless is not 1");
    draft_one_use(d, 1, 1, 0x0001);
    expect_profiles(d, draw_unfit, grant_unfit, "a right is missing");
    draft_one_use(d, 0, 1, 0x0101);
    expect_profiles(d, draw_unfit, grant_unfit, "another type");
    draft_one_use(d, 1, 1, 0x0101);
    draft_flow(d, 1, 1);
    expect_profiles(d, draw_unfit, grant_unfit, "from the draw itself");
    draft_one_use(d, 1, 1, 0x0101);
    draft_draw(d, 0, 0, 0xFFFF);
    expect_profiles(d, 0, grant_unfit, "no row leads to a draw");
    draft_catch(d, draft_throw(d, 0, 3), 3, 2);
    expect_profiles(d, packed(14, 2), grant_unfit, "caught into a draw");
    draft_one_use(d, 1, 1, 0x0101);
    draft_draw(d, draft_method(d), 0, 0);
    expect_profiles(d, packed(14, 2), grant_unfit, "entry never called");
    d->opening_count[0] = 256;
    expect_profiles(d, packed(9, 0), packed(9, 0), "refused first");
}

static void test_session_figures(struct draft *d)
{
    draft_file_a(d, 255, 2);
    expect_profiles(d, packed(14, 3), 0, "file A with endless");
    draft_callee(d, 1, 0);
    expect_profiles(d, packed(14, 3), packed(14, 1), "method 0 called");
    draft_file_a(d, 254, 2);
    expect_profiles(d, packed(14, 3), packed(14, 0), "254 is not endless");
    draft_file_a(d, 255, 2);
    draft_grant(d, 1, 0, 255, 0x0101);
    expect_profiles(d, packed(14, 3), packed(14, 5), "grant in method 1");
    draft_file_a(d, 255, 2);
    draft_callee(d, draft_call(d, 1, 1), 1);
    expect_profiles(d, packed(14, 3), 0, "another method called by its own");
}

static unsigned reached_draws(const struct draft *d, const uint8_t *sheet)
{
    unsigned reached = 0;
    struct effects stock;
    for (unsigned n = 0; n < d->nodes; n++)
        reached += d->node[n].kind == DRAW && stock_at(d, sheet, n, &stock);
    return reached;
}

static void test_profiles(unsigned cases, struct draft *d, uint8_t *sheet)
{
    struct tally seen[2] = {0};
    unsigned long draws = 0;
    test_one_shot_figures(d);
    test_session_figures(d);
    for (unsigned i = 0; i < cases; i++) {
        struct random r = random_of(SEED + 5, i);
        generate_graph(&r, &small, d);
        generate_one_shot(&r, d);
        expect(test_profiles_of(d, sheet, seen) == lost_call(d),
               "made to fit", i);
        draws += lost_call(d) == 0 ? reached_draws(d, sheet) : 0;
        generate_profile_change(&r, d);
        test_profiles_of(d, sheet, seen);
        generate_graph(&r, &small, d);
        generate_session(&r, d);
        expect(lowest_that(breaks_session, d) == lost_call(d), "made to fit",
               i);
        test_profiles_of(d, sheet, seen);
        generate_profile_change(&r, d);
        test_profiles_of(d, sheet, seen);
    }
    tally_print("one-shot", &seen[0]);
    tally_print("session", &seen[1]);
    printf("draws reached where one-shot fits: %lu\n", draws);
}

/* ---- Check on sheets of every kind ---- */

/* Whether the sheet marks all that the greatest marks, and lies below it. */
static bool is_below(struct shape s, const uint8_t *sheet,
                     const uint8_t *greatest)
{
    struct effects a, b;
    for (unsigned block = 0; block < block_count(s); block++) {
        if (!read_block(s, greatest, block, &b))
            continue;
        if (!read_block(s, sheet, block, &a))
            return false;
        for (unsigned t = 0; t < s.types; t++)
            if (!at_most(a.of[t], b.of[t]))
                return false;
    }
    return true;
}

static void test_sheets_of(struct random *r, const struct draft *d,
                           const uint8_t *greatest, struct tally *seen)
{
    uint8_t graph[MOST_GRAPH_BYTES], other_lines[MOST_GRAPH_BYTES], sheet[ROOM];
    size_t length = draft_write(d, graph);
    struct shape s = draft_shape(d);
    draft_write(d, other_lines);
    generate_lines(r, other_lines, length);
    for (unsigned i = 0; i < 3 * SHEET_KINDS; i++) {
        enum sheet_kind kind = i % SHEET_KINDS;
        size_t sheet_len = generate_sheet(r, kind, d, greatest, sheet);
        uint64_t answer = check(graph, length, sheet, sheet_len);
        bool is_broken = number_in(answer) == 12;
        tally_note(seen, answer);
        expect(without_line(check(other_lines, length, sheet, sheet_len))
                   == without_line(answer), "other lines, check", answer);
        if (is_verdict(answer))
            expect(is_below(s, sheet, greatest), "obeys, so below", answer);
        if (is_verdict(answer) || is_broken)
            expect(lowest_breach(d, sheet) == (is_broken ? answer : 0),
                   "the rules word by word", answer);
        if (kind == WRONG_LENGTH)
            expect(answer == packed(10, 0), "wrong length", answer);
        if (kind == BLANK)
            expect(answer == packed_type(12, MARK_MISSING, 1), "blank", answer);
        if (kind == LOWEST)
            expect(is_verdict(answer), "the lowest obeys", answer);
    }
}

static void test_small_graphs(unsigned cases, struct draft *d, uint8_t *sheet)
{
    struct tally worked = {0}, checked = {0};
    for (unsigned i = 0; i < cases; i++) {
        struct random r = random_of(SEED + 1, i);
        generate_graph(&r, &small, d);
        uint64_t answer = work_out_draft(d, sheet);
        expect(is_due(d, answer), "generated graphs are well formed", answer);
        tally_note(&worked, answer);
        if (is_verdict(answer))
            test_sheets_of(&r, d, sheet, &checked);
    }
    tally_print("small graphs", &worked);
    tally_print("their sheets", &checked);
}

static void test_limit_graphs(unsigned cases, struct draft *d, uint8_t *sheet)
{
    struct tally worked = {0};
    for (unsigned i = 0; i < cases; i++) {
        struct random r = random_of(SEED + 2, i);
        generate_limit_graph(&r, d);
        uint64_t answer = work_out_draft(d, sheet);
        expect(is_due(d, answer), "limit graphs are well formed", answer);
        tally_note(&worked, answer);
    }
    tally_print("limit-size graphs", &worked);
}

static void test_damaged_files(unsigned cases, struct draft *d, uint8_t *sheet)
{
    struct tally worked = {0};
    for (unsigned i = 0; i < cases; i++) {
        struct random r = random_of(SEED + 3, i);
        uint8_t graph[MOST_GRAPH_BYTES + MOST_ADDED];
        generate_graph(&r, &small, d);
        size_t length = draft_write(d, graph);
        length = generate_damage(&r, d, graph, length);
        size_t sheet_len = sheet_bytes(draft_shape(d));
        memset(sheet, 0xA5, sheet_len);
        tally_note(&worked, work_out(graph, length, sheet, sheet_len));
    }
    tally_print("damaged files", &worked);
}

/* ---- Lines ---- */

enum { ANSWERS = 3 };

/* Of each operation, without the line. */
static void ask_all(const uint8_t *graph, size_t length, uint8_t *sheet,
                    size_t sheet_len, uint64_t answer[ANSWERS])
{
    answer[0] = without_line(work_out(graph, length, sheet, sheet_len));
    answer[1] = without_line(peer_one_shot(graph, length));
    answer[2] = without_line(peer_session(graph, length));
}

static void test_lines_of(struct random *r, uint8_t *graph, size_t length,
                          uint8_t *sheet, size_t sheet_len, struct tally *seen)
{
    uint8_t *other_sheet = copy_of(sheet, sheet_len);
    uint64_t one[ANSWERS], other[ANSWERS];
    ask_all(graph, length, sheet, sheet_len, one);
    tally_note(seen, one[0]);
    if (number_in(one[0]) < 1 || number_in(one[0]) > 3) {
        generate_lines(r, graph, length);
        ask_all(graph, length, other_sheet, sheet_len, other);
        expect(memcmp(one, other, sizeof one) == 0, "other lines", one[0]);
        expect(memcmp(sheet, other_sheet, sheet_len) == 0,
               "other lines, sheet", one[0]);
    }
    free(other_sheet);
}

/* Pairs of files that differ only in lines, half of them damaged before. */
static void test_lines(unsigned cases, struct draft *d, uint8_t *sheet)
{
    struct tally seen = {0};
    for (unsigned i = 0; i < cases; i++) {
        struct random r = random_of(SEED + 7, i);
        uint8_t graph[MOST_GRAPH_BYTES + MOST_ADDED];
        generate_graph(&r, &small, d);
        size_t length = draft_write(d, graph);
        size_t sheet_len = sheet_bytes(draft_shape(d));
        if (i % 2 != 0)
            length = generate_damage(&r, d, graph, length);
        random_fill(&r, sheet, sheet_len);
        test_lines_of(&r, graph, length, sheet, sheet_len, &seen);
    }
    tally_print("pairs with other lines", &seen);
}

/* ---- Other opening stocks ---- */

static void test_openings_of(struct random *r, const uint8_t *graph,
                             size_t length, struct worked one,
                             struct openings *seen)
{
    uint8_t other_graph[MOST_GRAPH_BYTES], other_sheet[ROOM];
    struct shape s = shape_of(graph, length);
    for (unsigned change = 0; change < OPENING_CHANGES; change++) {
        struct worked other = {.sheet = other_sheet};
        memcpy(other_graph, graph, length);
        unsigned type = generate_opening(r, change, other_graph, length);
        random_fill(r, other_sheet, sheet_bytes(s));
        other.answer = work_out(other_graph, length, other_sheet,
                                sheet_bytes(s));
        const char *fault = opening_fault(s, change, type, one, other, seen);
        expect(fault == NULL, fault, change);
    }
}

static void test_openings(unsigned cases, struct draft *d, uint8_t *sheet)
{
    struct openings seen = {.removed = 0};
    for (unsigned i = 0; i < cases; i++) {
        struct random r = random_of(SEED + 8, i);
        uint8_t graph[MOST_GRAPH_BYTES];
        do
            generate_graph(&r, &small, d);
        while (lost_call(d) != 0);
        struct worked one = {work_out_draft(d, sheet), sheet};
        size_t length = draft_write(d, graph);
        test_openings_of(&r, graph, length, one, &seen);
    }
    openings_print(&seen);
    expect(openings_suffice(&seen), "enough to see", cases);
}

/* ---- A lent area ---- */

/* Lends just so many bytes. A refusal must leave sheet and area, a verdict
 * zeros in the area. */
static uint64_t work_out_queued(const uint8_t *graph, size_t length,
                                uint8_t *sheet, size_t sheet_len,
                                const uint8_t *area, size_t area_len)
{
    static const uint8_t zeros[AREA_BYTES];
    uint8_t *lent_graph = copy_of(graph, length);
    uint8_t *lent_sheet = copy_of(sheet, sheet_len);
    uint8_t *lent_area = copy_of(area, area_len);
    uint64_t answer = peer_work_out_queued(lent_graph, length, lent_sheet,
                                           sheet_len, lent_area, area_len);
    bool worked = is_verdict(answer);
    expect(worked || memcmp(sheet, lent_sheet, sheet_len) == 0, "sheet left",
           answer);
    expect(memcmp(worked ? zeros : area, lent_area, area_len) == 0,
           "area left, or zeros", answer);
    memcpy(sheet, lent_sheet, sheet_len);
    free(lent_graph);
    free(lent_sheet);
    free(lent_area);
    return answer;
}

/* As the other engines, but for 23 in place of their verdict. */
static void test_queued_of(const uint8_t *graph, size_t length, uint8_t *sheet,
                           size_t sheet_len, const uint8_t *area,
                           size_t area_len, struct tally *seen)
{
    uint8_t *plain = copy_of(sheet, sheet_len);
    uint64_t due = work_out(graph, length, plain, sheet_len);
    bool refused = is_verdict(due) && area_len != 4096;
    if (refused) {
        due = packed(23, 0);
        memcpy(plain, sheet, sheet_len);
    }
    tally_note(seen, due);
    expect(work_out_queued(graph, length, sheet, sheet_len, area, area_len)
               == due, "with an area", due);
    expect(memcmp(sheet, plain, sheet_len) == 0, "the same sheet", due);
    free(plain);
}

/* File A with every length of the area. */
static void test_lengths_of_area(struct draft *d, uint8_t *sheet,
                                 const uint8_t area[MOST_AREA])
{
    struct tally seen = {0};
    uint8_t graph[MOST_GRAPH_BYTES];
    draft_file_a(d, 2, 2);
    size_t length = draft_write(d, graph), len = sheet_bytes(draft_shape(d));
    memset(sheet, 0xA5, len);
    for (size_t area_len = 0; area_len <= MOST_AREA; area_len++)
        test_queued_of(graph, length, sheet, len, area, area_len, &seen);
    expect(seen.times[0] == 1 && seen.times[23] == MOST_AREA, "one length", 0);
    expect(peer_work_out_queued(graph, length, sheet, len, NULL, 0)
               == packed(23, 0), "no area", 0);
    expect(peer_work_out_queued(graph, length, NULL, 0, NULL, 0)
               == packed(10, 0), "no sheet and no area", 0);
}

/* Right lengths and wrong ones together, one of them or both; then the same on
 * a damaged file. */
static void test_queued(unsigned cases, struct draft *d, uint8_t *sheet)
{
    uint8_t area[MOST_AREA];
    struct tally seen = {0};
    memset(area, 0xA5, sizeof area);
    test_lengths_of_area(d, sheet, area);
    for (unsigned i = 0; i < 4 * cases; i++) {
        struct random r = random_of(SEED + 10, i);
        uint8_t graph[MOST_GRAPH_BYTES + MOST_ADDED];
        generate_graph(&r, &small, d);
        size_t length = draft_write(d, graph);
        size_t sheet_len = sheet_bytes(draft_shape(d)), area_len = AREA_BYTES;
        if (i & 1)
            sheet_len = generate_wrong_length(&r, sheet_len);
        if (i & 2)
            area_len = generate_wrong_area(&r);
        if (i & 4)
            length = generate_damage(&r, d, graph, length);
        random_fill(&r, sheet, sheet_len);
        generate_area(&r, area, area_len);
        test_queued_of(graph, length, sheet, sheet_len, area, area_len, &seen);
    }
    tally_print("with a lent area", &seen);
}

/* ---- Check many ---- */

/* Lends just what the lengths say. A refusal must leave the row. */
static uint64_t check_many(const uint8_t *graph, size_t length,
                           const uint8_t *sheets, struct lengths lent,
                           uint32_t row[MOST_ROW])
{
    size_t row_size = lent.row * sizeof row[0];
    uint8_t *lent_graph = copy_of(graph, length);
    uint8_t *lent_sheets = copy_of(sheets, lent.sheets);
    uint32_t *lent_row = (void *)copy_of((const uint8_t *)row, row_size);
    uint64_t answer = peer_check_many(lent_graph, length, lent_sheets,
                                      lent.sheets, lent_row, lent.row);
    if (answer != 0)
        expect(memcmp(row, lent_row, row_size) == 0, "row left", answer);
    memcpy(row, lent_row, row_size);
    free(lent_graph);
    free(lent_sheets);
    free(lent_row);
    return expect_line(graph, length, answer);
}

/* The file's own answer, which check gives before it minds that a sheet of no
 * bytes is too short; then 24. */
static uint64_t many_due(const uint8_t *graph, size_t length,
                         struct lengths lent)
{
    uint64_t answer = check(graph, length, graph, 0);
    if (answer != packed(10, 0))
        return answer;
    size_t one = sheet_bytes(shape_of(graph, length));
    for (size_t count = 1; count <= 20; count++)
        if (lent.sheets == count * one && lent.row == 2 * count)
            return 0;
    return packed(24, 0);
}

static void test_many_of(const uint8_t *graph, size_t length,
                         const uint8_t *sheets, struct lengths lent,
                         struct many_tally *seen)
{
    uint32_t row[MOST_ROW];
    memset(row, 0xA5, sizeof row);
    uint64_t answer = check_many(graph, length, sheets, lent, row);
    expect(answer == many_due(graph, length, lent), "check many", answer);
    tally_note(&seen->calls, answer);
    if (answer != 0)
        return;
    size_t count = lent.row / 2, one = lent.sheets / count;
    for (size_t i = 0; i < count; i++) {
        uint64_t alone = check(graph, length, sheets + i * one, one);
        expect(row_says(row, i, alone), "as for the sheet alone", i);
        tally_note(&seen->sheets, alone);
    }
    many_tally_note_row(seen, row, lent.row);
}

/* File A's sheet over and over: each number of bytes with the row that rounding
 * down would take, then each number of sheets with each row. */
static void test_lengths_of_many(struct draft *d, uint8_t *sheets)
{
    struct many_tally seen = {.mixed = 0};
    uint8_t graph[MOST_GRAPH_BYTES];
    draft_file_a(d, 2, 2);
    size_t length = draft_write(d, graph), one = sheet_bytes(draft_shape(d));
    expect(work_out_draft(d, sheets) == 0, "file A", 0);
    for (size_t i = 1; i <= MOST_SHEETS; i++)
        memcpy(sheets + i * one, sheets, one);
    for (size_t bytes = 0; bytes <= (MOST_SHEETS + 1) * one; bytes++) {
        struct lengths lent = {bytes, 2 * (bytes / one)};
        test_many_of(graph, length, sheets, lent, &seen);
    }
    expect(seen.calls.times[0] == MOST_SHEETS, "1 to 20 sheets", 0);
    for (size_t count = 0; count <= MOST_SHEETS + 1; count++)
        for (size_t row = 0; row <= MOST_ROW; row++) {
            struct lengths lent = {count * one, row};
            test_many_of(graph, length, sheets, lent, &seen);
        }
    expect(seen.calls.times[0] == 2 * MOST_SHEETS, "two numbers a sheet", 0);
    expect(peer_check_many(graph, length, NULL, 0, NULL, 0) == packed(24, 0),
           "nothing lent", 0);
}

/* Each number of sheets in turn; then wrong lengths, and a damaged file. */
static void test_many(unsigned cases, struct draft *d, uint8_t *sheet)
{
    static uint8_t sheets[MOST_SHEETS_BYTES];
    struct many_tally seen = {.mixed = 0};
    test_lengths_of_many(d, sheets);
    for (unsigned i = 0; i < cases; i++) {
        struct random r = random_of(SEED + 9, i);
        uint8_t graph[MOST_GRAPH_BYTES + MOST_ADDED];
        unsigned count = 1 + i % MOST_SHEETS;
        generate_graph(&r, &small, d);
        size_t length = draft_write(d, graph);
        work_out_draft(d, sheet);
        struct lengths lent = generate_sheets(&r, count, d, sheet, sheets);
        test_many_of(graph, length, sheets, lent, &seen);
        struct lengths wrong = generate_wrong_lengths(&r, count, lent);
        test_many_of(graph, length, sheets, wrong, &seen);
        length = generate_damage(&r, d, graph, length);
        test_many_of(graph, length, sheets, i % 2 == 0 ? lent : wrong, &seen);
    }
    many_tally_print(&seen);
    expect(many_tally_suffices(&seen), "enough to see", cases);
}

/* ---- The sheet against runs ---- */

/* What runs bring is never less than the sheet says; answers whether it is
 * just what the sheet says at every node. */
static bool agrees_with_runs(const struct draft *d, const uint8_t *sheet,
                             uint64_t answer, const struct runs *runs)
{
    bool exact = true;
    unsigned overdrawn = d->nodes;
    for (unsigned n = 0; n < d->nodes; n++) {
        const struct brought *b = &runs->at[n];
        struct effects stock;
        bool reached = stock_at(d, sheet, n, &stock);
        expect(reached || !b->arrived, "arrived, so reached", n);
        exact = exact && reached == b->arrived;
        for (unsigned t = 0; t < d->types && b->arrived; t++) {
            unsigned rights = stock.of[t].keep_max, count = stock.of[t].cap;
            expect(count <= b->fewest[t], "count brought", n);
            expect((rights & ~b->always[t]) == 0, "rights brought", n);
            exact = exact && count == b->fewest[t] && rights == b->always[t];
        }
        if (b->overdrawn && overdrawn == d->nodes)
            overdrawn = n;
    }
    uint64_t due = 0;
    if (overdrawn < d->nodes)
        due = at_node(d, packed_type(13, d->node[overdrawn].number, overdrawn));
    return exact && answer == due;
}

/* With fewer open calls, longer runs come within the limit of states. */
static bool is_exact(const struct draft *d, const uint8_t *sheet,
                     uint64_t answer, struct runs *runs)
{
    static const unsigned most_open[4] = {RUN_OPEN, 4, 3, 2};
    bool exact = false;
    for (unsigned i = 0; i < 4 && !exact; i++) {
        follow_runs(d, most_open[i], runs);
        exact = agrees_with_runs(d, sheet, answer, runs);
        expect(exact || !runs->all, "the sheet is exact", d->nodes);
    }
    return exact;
}

static void test_runs(unsigned cases, struct draft *d, uint8_t *sheet)
{
    unsigned long exhausted = 0, cut_but_exact = 0;
    struct runs *runs = malloc(sizeof *runs);
    expect(runs != NULL, "memory", 0);
    for (unsigned i = 0; i < cases; i++) {
        struct random r = random_of(SEED + 4, i);
        do
            generate_graph(&r, &tiny, d);
        while (lost_call(d) != 0);
        uint64_t answer = work_out_draft(d, sheet);
        bool exact = is_exact(d, sheet, answer, runs);
        exhausted += runs->all;
        cut_but_exact += exact && !runs->all;
    }
    free(runs);
    printf("runs: %u graphs, %lu followed to the end and exact; of the other "
           "%lu, exact %lu\n", cases, exhausted, cases - exhausted,
           cut_but_exact);
}

int main(int argc, char **argv)
{
    unsigned cases = argc > 1 ? (unsigned)strtoul(argv[1], NULL, 10) : 5000;
    struct draft d;
    uint8_t sheet[ROOM];
    memset(sheet, 0xA5, sizeof sheet);
    test_effects();
    test_figures(&d, sheet);
    test_families(cases, &d, sheet);
    test_profiles(cases, &d, sheet);
    test_small_graphs(cases, &d, sheet);
    test_limit_graphs(cases / 50, &d, sheet);
    test_damaged_files(2 * cases, &d, sheet);
    test_lines(cases, &d, sheet);
    test_openings(cases, &d, sheet);
    test_queued(cases, &d, sheet);
    test_many(cases, &d, sheet);
    test_runs(2 * cases, &d, sheet);
    printf("all passed\n");
    return 0;
}
