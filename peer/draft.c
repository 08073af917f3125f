#include "draft.h"

#include <string.h>

void draft_start(struct draft *d, unsigned types)
{
    memset(d, 0, sizeof *d);
    d->types = types;
    d->flow.most = MOST_FLOW;
    d->calls.most = MOST_CALLS;
    d->catches.most = MOST_CATCHES;
    memset(d->parent, NO_PARENT, sizeof d->parent);
}

unsigned draft_method(struct draft *d)
{
    d->entry[d->methods] = MOST_NODES;
    return d->methods++;
}

unsigned draft_node(struct draft *d, unsigned method, enum kind kind)
{
    if (d->entry[method] == MOST_NODES)
        d->entry[method] = (uint16_t)d->nodes;
    d->node[d->nodes] =
        (struct draft_node){.method = (uint8_t)method, .kind = (uint8_t)kind};
    return d->nodes++;
}

unsigned draft_grant(struct draft *d, unsigned method, unsigned type,
                     unsigned count, unsigned rights)
{
    unsigned node = draft_node(d, method, GRANT);
    d->node[node].number = (uint8_t)type;
    d->node[node].count = (uint8_t)count;
    d->node[node].rights = (uint16_t)rights;
    return node;
}

unsigned draft_draw(struct draft *d, unsigned method, unsigned type,
                    unsigned rights)
{
    unsigned node = draft_node(d, method, DRAW);
    d->node[node].number = (uint8_t)type;
    d->node[node].rights = (uint16_t)rights;
    return node;
}

unsigned draft_call(struct draft *d, unsigned method, unsigned repeats)
{
    unsigned node = draft_node(d, method, CALL);
    d->node[node].count = (uint8_t)repeats;
    return node;
}

unsigned draft_throw(struct draft *d, unsigned method, unsigned exception)
{
    unsigned node = draft_node(d, method, THROW);
    d->node[node].number = (uint8_t)exception;
    return node;
}

static int compare_rows(const uint16_t a[3], const uint16_t b[3])
{
    for (unsigned field = 0; field < 3; field++)
        if (a[field] != b[field])
            return a[field] < b[field] ? -1 : 1;
    return 0;
}

static bool add_row(struct draft_rows *rows, unsigned a, unsigned b, unsigned c)
{
    const uint16_t row[3] = {(uint16_t)a, (uint16_t)b, (uint16_t)c};
    unsigned at = rows->count;
    while (at > 0 && compare_rows(rows->row[at - 1], row) > 0)
        at--;
    if (rows->count == rows->most
        || (at > 0 && compare_rows(rows->row[at - 1], row) == 0))
        return false;
    memmove(rows->row[at + 1], rows->row[at],
            (rows->count - at) * sizeof rows->row[0]);
    memcpy(rows->row[at], row, sizeof row);
    rows->count++;
    return true;
}

bool draft_flow(struct draft *d, unsigned from, unsigned to)
{
    return add_row(&d->flow, from, to, 0);
}

bool draft_callee(struct draft *d, unsigned node, unsigned method)
{
    return add_row(&d->calls, node, method, 0);
}

bool draft_catch(struct draft *d, unsigned from, unsigned exception,
                 unsigned to)
{
    return add_row(&d->catches, from, exception, to);
}

void draft_alter(struct draft_rows *rows, unsigned row, unsigned field,
                 unsigned value)
{
    uint16_t altered[3];
    memcpy(altered, rows->row[row], sizeof altered);
    altered[field] = (uint16_t)value;
    rows->count--;
    memmove(rows->row[row], rows->row[row + 1],
            (rows->count - row) * sizeof rows->row[0]);
    add_row(rows, altered[0], altered[1], altered[2]);
}

void draft_take_out(struct draft_rows *rows, unsigned from)
{
    unsigned kept = 0;
    for (unsigned row = 0; row < rows->count; row++)
        if (rows->row[row][0] != from)
            memmove(rows->row[kept++], rows->row[row], sizeof rows->row[0]);
    rows->count = kept;
}

unsigned draft_lost_call(const struct draft *d)
{
    bool has_row[MOST_NODES] = {false};
    for (unsigned row = 0; row < d->calls.count; row++)
        has_row[d->calls.row[row][0]] = true;
    for (unsigned node = 0; node < d->nodes; node++)
        if (d->node[node].kind == CALL && !has_row[node])
            return node;
    return MOST_NODES;
}

static bool has_catch(const struct draft *d, unsigned node, unsigned kind)
{
    for (unsigned row = 0; row < d->catches.count; row++)
        if (d->catches.row[row][0] == node && d->catches.row[row][1] == kind)
            return true;
    return false;
}

unsigned draft_caught_as(const struct draft *d, unsigned node,
                         unsigned exception)
{
    unsigned kind = exception;
    while (kind != NO_PARENT && !has_catch(d, node, kind))
        kind = d->parent[kind];
    return kind;
}

struct shape draft_shape(const struct draft *d)
{
    return (struct shape){d->methods, d->nodes, d->types};
}

unsigned draft_row_count(const struct draft *d, enum table t)
{
    const unsigned counts[TABLES] = {d->methods, d->nodes, d->flow.count,
                                     d->calls.count, d->catches.count,
                                     d->types};
    return counts[t];
}

size_t draft_table_at(const struct draft *d, enum table t)
{
    size_t at = t >= CATCHES ? EXCEPTIONS : 0;
    for (unsigned before = 0; before < t; before++)
        at += draft_row_count(d, before) * (size_t)row_bytes[before];
    return at;
}

static uint8_t *put(uint8_t *at, unsigned word)
{
    write_word(at, word);
    return at + 2;
}

static uint8_t *put_node(uint8_t *at, const struct draft_node *node)
{
    at[0] = node->method;
    at[1] = node->kind;
    at[2] = node->number;
    at[3] = node->count;
    at = put(at + 4, node->rights);
    return put(at, node->line);
}

static uint8_t *put_rows(uint8_t *at, const struct draft_rows *rows,
                         unsigned fields)
{
    for (unsigned row = 0; row < rows->count; row++)
        for (unsigned field = 0; field < fields; field++)
            at = put(at, rows->row[row][field]);
    return at;
}

size_t draft_write(const struct draft *d, uint8_t *graph)
{
    uint8_t *at = graph;
    for (unsigned m = 0; m < d->methods; m++)
        at = put(at, d->entry[m]);
    for (unsigned n = 0; n < d->nodes; n++)
        at = put_node(at, &d->node[n]);
    at = put_rows(at, &d->flow, 2);
    at = put_rows(at, &d->calls, 2);
    memcpy(at, d->parent, sizeof d->parent);
    at = put_rows(at + sizeof d->parent, &d->catches, 3);
    for (unsigned t = 0; t < d->types; t++) {
        at = put(at, d->opening_rights[t]);
        at = put(at, d->opening_count[t]);
    }
    unsigned distance = (unsigned)(at - graph);
    for (unsigned t = 0; t < TABLES; t++)
        at = put(at, draft_row_count(d, t));
    at = put(at, distance);
    return (size_t)(at - graph);
}

void draft_file_a(struct draft *d, unsigned granted, unsigned repeats)
{
    draft_start(d, 1);
    unsigned main = draft_method(d);
    unsigned called = draft_method(d);
    unsigned first = draft_grant(d, main, 0, granted, 0x0101);
    unsigned call = draft_call(d, main, repeats);
    unsigned end = draft_node(d, main, RETURN);
    unsigned drawn = draft_draw(d, called, 0, 0x0101);
    unsigned back = draft_node(d, called, RETURN);
    draft_flow(d, first, call);
    draft_flow(d, call, end);
    draft_flow(d, drawn, back);
    draft_callee(d, call, called);
}
