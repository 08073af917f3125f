/* The ten rules word by word, over the draft of a graph and a sheet for it:
 * every row, exception and round for itself. */
#ifndef PEER_RULES_H
#define PEER_RULES_H

#include "answer.h"
#include "draft.h"

/* How a sheet breaks the rules. */
struct breaches {
    const struct draft *graph;
    const uint8_t *sheet;
    /* By rule: the types that fail somewhere, and whether a mark is missing. */
    bool fails[RULES + 1][MARK_MISSING + 1];
};

static inline bool breaches_read(const struct breaches *b, unsigned block,
                                 struct effects *e)
{
    return read_block(draft_shape(b->graph), b->sheet, block, e);
}

/* "Mark 1 and at most" what is named. */
static inline void breaches_ask(struct breaches *b, unsigned rule,
                                unsigned block, const struct effects *most)
{
    struct effects e;
    if (!breaches_read(b, block, &e)) {
        b->fails[rule][MARK_MISSING] = true;
        return;
    }
    for (unsigned t = 0; t < b->graph->types; t++)
        if (!at_most(e.of[t], most->of[t]))
            b->fails[rule][t] = true;
}

static inline void breaches_ask_node(struct breaches *b, unsigned rule,
                                     unsigned node, const struct effects *most)
{
    breaches_ask(b, rule, node_block(draft_shape(b->graph), node), most);
}

static inline struct effects breaches_then(const struct breaches *b,
                                           const struct effects *first,
                                           const struct effects *second)
{
    struct effects e = *first;
    for (unsigned t = 0; t < b->graph->types; t++)
        e.of[t] = then(first->of[t], second->of[t]);
    return e;
}

/* Rules 3 and 7. */
static inline void breaches_along_flow(struct breaches *b, unsigned rule,
                                       unsigned node, const struct effects *e)
{
    const struct draft_rows *flow = &b->graph->flow;
    for (unsigned row = 0; row < flow->count; row++)
        if (flow->row[row][0] == node)
            breaches_ask_node(b, rule, flow->row[row][1], e);
}

/* Rules 4 and 6, or 9 and 10. */
static inline void breaches_of_exception(struct breaches *b, unsigned caught,
                                         unsigned leaves, unsigned node,
                                         unsigned exception,
                                         const struct effects *e)
{
    const struct draft_rows *catches = &b->graph->catches;
    unsigned kind = draft_caught_as(b->graph, node, exception);
    for (unsigned row = 0; row < catches->count; row++) {
        const uint16_t *c = catches->row[row];
        if (c[0] == node && c[1] == kind)
            breaches_ask_node(b, caught, c[2], e);
    }
    if (kind == NO_PARENT)
        breaches_ask(b, leaves,
                     exit_block(b->graph->node[node].method, 1 + exception),
                     e);
}

/* Rules 8 to 10, after some rounds of a call. */
static inline void breaches_of_round(struct breaches *b, unsigned call,
                                     unsigned method, const struct effects *e)
{
    struct effects stock, exit;
    if (breaches_read(b, stock_block(b->graph->node[call].method), &stock)) {
        stock = breaches_then(b, &stock, e);
        breaches_ask(b, 8, stock_block(method), &stock);
    }
    for (unsigned exception = 0; exception < EXCEPTIONS; exception++)
        if (breaches_read(b, exit_block(method, 1 + exception), &exit)) {
            exit = breaches_then(b, e, &exit);
            breaches_of_exception(b, 9, 10, call, exception, &exit);
        }
}

/* Rules 7 to 10, of one call row. */
static inline void breaches_of_call(struct breaches *b, unsigned call,
                                    unsigned method, struct effects e)
{
    struct effects exit;
    bool returns = breaches_read(b, exit_block(method, 0), &exit);
    breaches_of_round(b, call, method, &e);
    for (unsigned k = 1; returns && k <= b->graph->node[call].count; k++) {
        e = breaches_then(b, &e, &exit);
        breaches_along_flow(b, 7, call, &e);
        if (k < b->graph->node[call].count)
            breaches_of_round(b, call, method, &e);
    }
}

/* Rules 3 to 10, of a marked node. */
static inline void breaches_of_node(struct breaches *b, unsigned n,
                                    struct effects e)
{
    const struct draft_node *node = &b->graph->node[n];
    const struct draft_rows *calls = &b->graph->calls;
    struct effect step = draw();
    switch (node->kind) {
    case CALL:
        for (unsigned row = 0; row < calls->count; row++)
            if (calls->row[row][0] == n)
                breaches_of_call(b, n, calls->row[row][1], e);
        break;
    case RETURN:
        breaches_ask(b, 5, exit_block(node->method, 0), &e);
        break;
    case THROW:
        breaches_of_exception(b, 4, 6, n, node->number, &e);
        break;
    default:
        if (node->kind == GRANT)
            step = grant(node->rights, node->count);
        if (node->kind != PLAIN)
            e.of[node->number] = then(e.of[node->number], step);
        breaches_along_flow(b, 3, n, &e);
    }
}

static inline void find_breaches(struct breaches *b)
{
    const struct draft *d = b->graph;
    struct effects opening, nothing, e;
    for (unsigned t = 0; t < d->types; t++) {
        opening.of[t] = grant(d->opening_rights[t], d->opening_count[t]);
        nothing.of[t] = nothing_done();
    }
    breaches_ask(b, 1, stock_block(0), &opening);
    for (unsigned m = 0; m < d->methods; m++)
        breaches_ask_node(b, 2, d->entry[m], &nothing);
    for (unsigned n = 0; n < d->nodes; n++)
        if (breaches_read(b, node_block(draft_shape(d), n), &e))
            breaches_of_node(b, n, e);
}

/* Answer 12, or 0: the lowest broken rule, and the lowest type that fails in
 * any place where it is broken. */
static inline uint64_t lowest_breach(const struct draft *d,
                                     const uint8_t *sheet)
{
    struct breaches b = {.graph = d, .sheet = sheet};
    find_breaches(&b);
    for (unsigned rule = 1; rule <= RULES; rule++)
        for (unsigned type = 0; type <= MARK_MISSING; type++)
            if (b.fails[rule][type])
                return packed_type(12, type, rule);
    return 0;
}

#endif
