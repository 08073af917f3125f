#include "runs.h"

#include <string.h>

/* States are compared byte by byte, so no byte may be padding. */
_Static_assert(sizeof(struct arrival)
                   == 2 + 3 * RUN_OPEN + 3 * RUN_TYPES, "no padding");

static unsigned hash(const struct arrival *a)
{
    const uint8_t *bytes = (const uint8_t *)a;
    uint32_t h = 2166136261u;
    for (size_t i = 0; i < sizeof *a; i++)
        h = (h ^ bytes[i]) * 16777619u;
    return (h ^ h >> 15) % RUN_SLOTS;
}

/* A further state, unless it was met before. */
static void arrive(struct runs *r, const struct arrival *a)
{
    unsigned slot = hash(a);
    while (r->slot[slot] != 0) {
        if (memcmp(&r->state[r->slot[slot] - 1], a, sizeof *a) == 0)
            return;
        slot = (slot + 1) % RUN_SLOTS;
    }
    if (r->states == RUN_STATES) {
        r->all = false;
        return;
    }
    r->state[r->states++] = *a;
    r->slot[slot] = r->states;
}

static void arrive_at(struct runs *r, struct arrival a, unsigned node)
{
    a.node = (uint8_t)node;
    arrive(r, &a);
}

/* A closed call leaves no trace, so that equal states have equal bytes. */
static void close_call(struct arrival *a)
{
    a->depth--;
    a->open[a->depth] = (struct open_call){0, 0, 0};
}

static void along_flow(const struct draft *d, struct runs *r, struct arrival a,
                       unsigned from)
{
    for (unsigned row = 0; row < d->flow.count; row++)
        if (d->flow.row[row][0] == from)
            arrive_at(r, a, d->flow.row[row][1]);
}

static bool along_catches(const struct draft *d, struct runs *r,
                          struct arrival a, unsigned from, unsigned exception)
{
    unsigned kind = draft_caught_as(d, from, exception);
    for (unsigned row = 0; row < d->catches.count; row++) {
        const uint16_t *c = d->catches.row[row];
        if (c[0] == from && c[1] == kind)
            arrive_at(r, a, c[2]);
    }
    return kind != NO_PARENT;
}

static void step_call(const struct draft *d, struct runs *r, struct arrival a)
{
    unsigned node = a.node;
    if (a.depth == r->most_open) {
        r->all = false;
        return;
    }
    a.depth++;
    for (unsigned row = 0; row < d->calls.count; row++) {
        unsigned method = d->calls.row[row][1];
        if (d->calls.row[row][0] != node)
            continue;
        a.open[a.depth - 1] = (struct open_call){
            (uint8_t)node, (uint8_t)method, d->node[node].count};
        arrive_at(r, a, d->entry[method]);
    }
}

static void step_return(const struct draft *d, struct runs *r, struct arrival a)
{
    if (a.depth == 0)
        return;
    struct open_call *last = &a.open[a.depth - 1];
    unsigned call = last->node;
    if (last->repeats_left > 1) {
        last->repeats_left--;
        arrive_at(r, a, d->entry[last->method]);
    }
    close_call(&a);
    along_flow(d, r, a, call);
}

static void step_throw(const struct draft *d, struct runs *r, struct arrival a)
{
    unsigned exception = d->node[a.node].number;
    unsigned node = a.node;
    while (!along_catches(d, r, a, node, exception) && a.depth > 0) {
        node = a.open[a.depth - 1].node;
        close_call(&a);
    }
}

static bool is_covered(const struct draft_node *node, const struct arrival *a)
{
    return (node->rights & ~(unsigned)a->rights[node->number]) == 0
        && a->count[node->number] >= 1;
}

static void step(const struct draft *d, struct runs *r, struct arrival a)
{
    const struct draft_node *node = &d->node[a.node];
    unsigned type = node->number;
    switch (node->kind) {
    case CALL:
        step_call(d, r, a);
        return;
    case RETURN:
        step_return(d, r, a);
        return;
    case THROW:
        step_throw(d, r, a);
        return;
    case GRANT:
        a.rights[type] = node->rights;
        a.count[type] = node->count;
        break;
    case DRAW:
        if (a.count[type] != 0 && a.count[type] != ENDLESS)
            a.count[type]--;
        break;
    default:
        break;
    }
    along_flow(d, r, a, a.node);
}

static void note(const struct draft *d, struct runs *r, const struct arrival *a)
{
    const struct draft_node *node = &d->node[a->node];
    struct brought *b = &r->at[a->node];
    for (unsigned t = 0; t < d->types; t++) {
        if (!b->arrived || a->count[t] < b->fewest[t])
            b->fewest[t] = a->count[t];
        b->always[t] = a->rights[t] & (b->arrived ? b->always[t] : ALL_RIGHTS);
    }
    b->arrived = true;
    if (node->kind == DRAW && !is_covered(node, a))
        b->overdrawn = true;
}

void follow_runs(const struct draft *d, unsigned most_open, struct runs *r)
{
    struct arrival start;
    memset(&start, 0, sizeof start);
    start.node = (uint8_t)d->entry[0];
    for (unsigned t = 0; t < d->types; t++) {
        start.rights[t] = d->opening_rights[t];
        start.count[t] = (uint8_t)d->opening_count[t];
    }
    memset(r->at, 0, sizeof r->at);
    memset(r->slot, 0, sizeof r->slot);
    r->states = 0;
    r->all = true;
    r->most_open = most_open;
    arrive(r, &start);
    for (unsigned i = 0; i < r->states; i++) {
        note(d, r, &r->state[i]);
        step(d, r, r->state[i]);
    }
}
