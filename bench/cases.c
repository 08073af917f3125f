#include "cases.h"

#include "generate.h"

enum { METHOD_NODES = MOST_NODES / MOST_METHODS };

/* Nodes stand at the same place in each method, so a place in a method and the
 * method give the node. */
static unsigned node_at(unsigned method, unsigned place)
{
    return METHOD_NODES * method + place;
}

static void start_full(struct draft *d, unsigned methods)
{
    draft_start(d, MOST_TYPES);
    for (unsigned t = 0; t < MOST_TYPES; t++) {
        d->opening_rights[t] = 0x0F0F;
        d->opening_count[t] = 250;
    }
    for (unsigned m = 0; m < methods; m++)
        draft_method(d);
}

/* The last method has none to call, and a plain node in place of the call. */
static unsigned add_call(struct draft *d, unsigned m, unsigned methods,
                         unsigned repeats)
{
    return m + 1 < methods ? draft_call(d, m, repeats)
                           : draft_node(d, m, PLAIN);
}

static void build_file_a(struct draft *d)
{
    draft_file_a(d, 2, 2);
}

/* One method of ten: it asks, spends on a loop, calls the next one, and
 * handles what that throws. */
static void add_addon_method(struct draft *d, unsigned m, unsigned methods)
{
    unsigned type = m % 3, first = d->nodes;
    static const uint8_t flow[10][2] = {{0, 1}, {1, 2}, {2, 3}, {2, 4}, {3, 5},
                                        {5, 6}, {6, 1}, {6, 7}, {8, 9}, {9, 7}};
    draft_node(d, m, PLAIN);
    draft_grant(d, m, type, 20, 0x0303);
    draft_draw(d, m, type, 0x0101);
    draft_node(d, m, PLAIN);
    draft_throw(d, m, m);
    unsigned call = add_call(d, m, methods, 3);
    draft_draw(d, m, type, 0x0201);
    draft_node(d, m, RETURN);
    unsigned handler = draft_node(d, m, PLAIN);
    draft_draw(d, m, type, 0x0001);
    for (unsigned row = 0; row < 10; row++)
        draft_flow(d, first + flow[row][0], first + flow[row][1]);
    if (m + 1 < methods) {
        draft_callee(d, call, m + 1);
        draft_catch(d, call, m + 1, handler);
    }
}

static void build_addon(struct draft *d)
{
    const unsigned methods = 6;
    draft_start(d, 3);
    for (unsigned m = 0; m < methods; m++)
        draft_method(d);
    for (unsigned m = 0; m < methods; m++)
        add_addon_method(d, m, methods);
}

/* Grants, draws and plain nodes of one method, the last a return. */
static void add_mixed_nodes(struct draft *d)
{
    for (unsigned n = 0; n + 1 < MOST_NODES; n++) {
        unsigned type = n % MOST_TYPES;
        if (n % 7 == 0)
            draft_grant(d, 0, type, 100 + n % 155, 0x0F0F);
        else if (n % 7 < 5)
            draft_draw(d, 0, type, 0x0101);
        else
            draft_node(d, 0, PLAIN);
    }
    draft_node(d, 0, RETURN);
}

static void build_in_table_order(struct draft *d)
{
    start_full(d, 1);
    add_mixed_nodes(d);
    for (unsigned n = 0; n + 1 < MOST_NODES; n++) {
        draft_flow(d, n, n + 1);
        if (n + 2 < MOST_NODES)
            draft_flow(d, n, n + 2);
    }
}

/* From the last node but the return down to node 0. */
static void build_against_table_order(struct draft *d)
{
    start_full(d, 1);
    add_mixed_nodes(d);
    d->entry[0] = MOST_NODES - 2;
    for (unsigned n = MOST_NODES - 2; n > 0; n--) {
        draft_flow(d, n, n - 1);
        if (n > 1)
            draft_flow(d, n, n - 2);
    }
}

static void flow_in_ring(struct draft *d, const unsigned *order,
                         unsigned nodes)
{
    for (unsigned i = 0; i < nodes; i++)
        draft_flow(d, order[i], order[(i + 1) % nodes]);
}

/* Each time round spends one more of the stock, down to 0. */
static void add_ring(struct draft *d, const unsigned order[MOST_NODES])
{
    start_full(d, 1);
    draft_draw(d, 0, 0, 0x0101);
    for (unsigned n = 1; n < MOST_NODES; n++)
        draft_node(d, 0, PLAIN);
    flow_in_ring(d, order, MOST_NODES);
}

static void build_loop(struct draft *d)
{
    unsigned order[MOST_NODES];
    for (unsigned i = 0; i < MOST_NODES; i++)
        order[i] = i;
    add_ring(d, order);
}

static void build_shuffled_loop(struct draft *d)
{
    struct random r = random_of(1, 0);
    unsigned order[MOST_NODES];
    for (unsigned i = 0; i < MOST_NODES; i++) {
        unsigned j = random_below(&r, i + 1);
        order[i] = order[j];
        order[j] = i;
    }
    add_ring(d, order);
}

/* Three calls in each method, each to the next two methods. */
static void add_calling_method(struct draft *d, unsigned m, unsigned repeats)
{
    draft_grant(d, m, m % MOST_TYPES, 255 - m, 0x0F0F);
    add_call(d, m, MOST_METHODS, repeats);
    draft_draw(d, m, m % MOST_TYPES, 0x0101);
    add_call(d, m, MOST_METHODS, repeats);
    draft_node(d, m, PLAIN);
    add_call(d, m, MOST_METHODS, repeats);
    draft_draw(d, m, (m + 1) % MOST_TYPES, 0x0101);
    draft_node(d, m, RETURN);
    for (unsigned place = 0; place + 1 < METHOD_NODES; place++)
        draft_flow(d, node_at(m, place), node_at(m, place + 1));
    draft_flow(d, node_at(m, 0), node_at(m, 2));
    draft_flow(d, node_at(m, 2), node_at(m, 4));
    draft_flow(d, node_at(m, 4), node_at(m, 6));
    for (unsigned place = 1; place <= 5; place += 2)
        for (unsigned next = m + 1; next <= m + 2 && next < MOST_METHODS; next++)
            draft_callee(d, node_at(m, place), next);
}

static void build_calls(struct draft *d, unsigned repeats)
{
    start_full(d, MOST_METHODS);
    for (unsigned m = 0; m < MOST_METHODS; m++)
        add_calling_method(d, m, repeats);
}

static void build_single_calls(struct draft *d)
{
    build_calls(d, 1);
}

static void build_repeats(struct draft *d)
{
    build_calls(d, 255);
}

/* Three throws, and a call that catches every second exception, in two ways. */
static void add_throwing_method(struct draft *d, unsigned m)
{
    static const unsigned thrown[3] = {2, 3, 6};
    draft_draw(d, m, m % MOST_TYPES, 0x0101);
    unsigned call = add_call(d, m, MOST_METHODS, 2);
    draft_throw(d, m, m % EXCEPTIONS);
    draft_throw(d, m, (m + 3) % EXCEPTIONS);
    unsigned first = draft_draw(d, m, 0, 0x0101);
    unsigned second = draft_node(d, m, PLAIN);
    draft_throw(d, m, (m + 5) % EXCEPTIONS);
    unsigned end = draft_node(d, m, RETURN);
    draft_flow(d, node_at(m, 0), call);
    for (unsigned i = 0; i < 3; i++)
        draft_flow(d, node_at(m, 0), node_at(m, thrown[i]));
    draft_flow(d, call, end);
    draft_flow(d, first, end);
    draft_flow(d, second, end);
    for (unsigned e = m % 2; e < EXCEPTIONS && m + 1 < MOST_METHODS; e += 2) {
        draft_catch(d, call, e, first);
        draft_catch(d, call, e, second);
    }
    for (unsigned next = m + 1; next <= m + 8 && next < MOST_METHODS; next++)
        draft_callee(d, call, next);
}

static void build_exceptions(struct draft *d)
{
    start_full(d, MOST_METHODS);
    for (unsigned m = 0; m < MOST_METHODS; m++)
        add_throwing_method(d, m);
}

/* Each method may return at once, or call the next, in a ring, and itself, so
 * many times. */
static void add_recursive_method(struct draft *d, unsigned m, unsigned on,
                                 unsigned own)
{
    draft_node(d, m, PLAIN);
    draft_draw(d, m, m % MOST_TYPES, 0x0101);
    unsigned next = draft_call(d, m, on);
    draft_node(d, m, PLAIN);
    unsigned itself = draft_call(d, m, own);
    draft_node(d, m, PLAIN);
    draft_node(d, m, PLAIN);
    draft_node(d, m, RETURN);
    for (unsigned place = 0; place + 1 < METHOD_NODES; place++)
        draft_flow(d, node_at(m, place), node_at(m, place + 1));
    draft_flow(d, node_at(m, 0), node_at(m, 6));
    draft_flow(d, node_at(m, 3), node_at(m, 5));
    draft_callee(d, next, (m + 1) % MOST_METHODS);
    draft_callee(d, itself, m);
}

static void build_recursive(struct draft *d, unsigned on, unsigned own)
{
    start_full(d, MOST_METHODS);
    for (unsigned m = 0; m < MOST_METHODS; m++)
        add_recursive_method(d, m, on, own);
}

static void build_recursion(struct draft *d)
{
    build_recursive(d, 1, 2);
}

static void build_repeated_recursion(struct draft *d)
{
    build_recursive(d, 255, 255);
}

/* First, middle, second, the one after the middle, ..: on such a way neither a
 * sweep upwards nor one downwards gets far. */
static unsigned zigzag(unsigned place, unsigned count)
{
    return place / 2 + (place % 2 == 0 ? 0 : (count + 1) / 2);
}

/* A draw, and calls of methods that only return. */
static void build_ring_through_calls(struct draft *d)
{
    enum { CALLED = MOST_METHODS - 1, RING = MOST_NODES - CALLED };
    unsigned order[RING];
    start_full(d, MOST_METHODS);
    draft_draw(d, 0, 0, 0x0101);
    for (unsigned n = 1; n < RING; n++)
        draft_callee(d, draft_call(d, 0, 255), 1 + n % CALLED);
    for (unsigned m = 1; m <= CALLED; m++)
        draft_node(d, m, RETURN);
    for (unsigned i = 0; i < RING; i++)
        order[i] = zigzag(i, RING);
    flow_in_ring(d, order, RING);
}

/* Calls the method where an exception's way ends, and for what comes out there
 * throws the next exception, mostly after a draw of another type. */
static void add_turning_method(struct draft *d, unsigned m, unsigned end)
{
    unsigned first = draft_node(d, m, PLAIN), call = draft_call(d, m, 1);
    draft_flow(d, first, call);
    draft_callee(d, call, end);
    for (unsigned e = 0; e < EXCEPTIONS; e++) {
        unsigned caught = draft_throw(d, m, (e + 1) % EXCEPTIONS);
        draft_flow(d, first, caught);
        if (e < MOST_TYPES) {
            unsigned drawn = draft_draw(d, m, e, 0x0101);
            draft_flow(d, drawn, caught);
            caught = drawn;
        }
        draft_catch(d, call, e, caught);
    }
}

/* Each of eight exceptions leaves 50 methods one after the other, and then the
 * next one does. The nodes that are left are calls that never return. */
static void build_ring_through_exits(struct draft *d)
{
    enum { WAY = 50, OTHERS = MOST_METHODS - WAY };
    start_full(d, MOST_METHODS);
    add_turning_method(d, zigzag(0, WAY), zigzag(WAY - 1, WAY));
    for (unsigned m = 1; m < WAY; m++)
        draft_call(d, m, 1);
    for (unsigned i = 1; i < WAY; i++)
        draft_callee(d, d->entry[zigzag(i, WAY)], zigzag(i - 1, WAY));
    while (d->nodes < MOST_NODES) {
        unsigned m = WAY + d->nodes % OTHERS;
        draft_callee(d, draft_call(d, m, 1), m);
    }
}

/* The generator also makes graphs with calls to nobody. */
static void build_limit(struct random *r, struct draft *d)
{
    do
        generate_limit_graph(r, d);
    while (draft_lost_call(d) < MOST_NODES);
}

static void build_random(struct draft *d)
{
    struct random r = random_of(1, 1);
    build_limit(&r, d);
}

void build_limit_graph(struct draft *d, unsigned number)
{
    struct random r = random_of(2, number);
    build_limit(&r, d);
}

static void build_one_shot(struct draft *d)
{
    struct random r = random_of(1, 2);
    build_limit(&r, d);
    generate_one_shot(&r, d);
}

static void build_session(struct draft *d)
{
    struct random r = random_of(1, 3);
    build_limit(&r, d);
    generate_session(&r, d);
}

const struct bench_case bench_cases[BENCH_CASES] = {
    {"file A", build_file_a},
    {"add-on of 60 nodes", build_addon},
    {"loop-free, in table order", build_in_table_order},
    {"loop-free, against table order", build_against_table_order},
    {"loop, in table order", build_loop},
    {"loop, shuffled", build_shuffled_loop},
    {"calls with one repeat", build_single_calls},
    {"calls with 255 repeats", build_repeats},
    {"many exceptions", build_exceptions},
    {"deep recursion", build_recursion},
    {"recursion with 255 repeats", build_repeated_recursion},
    {"any limit-size graph", build_random},
};

const struct bench_case ring_cases[RING_CASES] = {
    {"ring of calls with 255 repeats", build_ring_through_calls},
    {"ring through 400 exits", build_ring_through_exits},
};

const struct bench_case one_shot_case = {"one-shot, limit-size graph that fits",
                                         build_one_shot};
const struct bench_case session_case = {"session, limit-size graph that fits",
                                        build_session};
