#include "peer.h"

#include "answer.h"
#include "effect.h"
#include "format.h"
#include "sheet.h"

#include <stdbool.h>
#include <string.h>

/* ---- The graph file ---- */

struct graph {
    const uint8_t *bytes;
    unsigned count[TABLES];
    size_t start[TABLES];
    struct shape shape;
    /* The rows of a node stand together: where they start in flow, calls and
     * catches; node N's start is the table's end. */
    unsigned first_row[3][MOST_NODES + 1];
};

struct rows {
    unsigned first, end;
};

static unsigned cell(const struct graph *g, enum table t, unsigned row,
                     unsigned field)
{
    return read_word(g->bytes + g->start[t] + row * row_bytes[t] + 2 * field);
}

static unsigned entry_of(const struct graph *g, unsigned method)
{
    return cell(g, METHODS, method, 0);
}

static unsigned node_byte(const struct graph *g, unsigned node, unsigned field)
{
    return g->bytes[g->start[NODES] + node * row_bytes[NODES] + field];
}

static unsigned method_of(const struct graph *g, unsigned node)
{
    return node_byte(g, node, 0);
}

static unsigned kind_of(const struct graph *g, unsigned node)
{
    return node_byte(g, node, 1);
}

static unsigned number_of(const struct graph *g, unsigned node)
{
    return node_byte(g, node, 2);
}

static unsigned count_of(const struct graph *g, unsigned node)
{
    return node_byte(g, node, 3);
}

static unsigned rights_of(const struct graph *g, unsigned node)
{
    return cell(g, NODES, node, 2);
}

/* Never judged. */
static unsigned line_of(const struct graph *g, unsigned node)
{
    return cell(g, NODES, node, 3);
}

/* An answer whose place is a node. */
static uint64_t with_line(const struct graph *g, uint64_t answer)
{
    return packed_line(answer, line_of(g, place_in(answer)));
}

static struct rows rows_of(const struct graph *g, enum table t, unsigned node)
{
    const unsigned *first = g->first_row[t - FLOW];
    return (struct rows){first[node], first[node + 1]};
}

static unsigned parent_of(const struct graph *g, unsigned exception)
{
    return g->bytes[g->start[CATCHES] - EXCEPTIONS + exception];
}

/* Those that name just this exception. */
static struct rows own_catches(const struct graph *g, unsigned node,
                               unsigned exception)
{
    struct rows all = rows_of(g, CATCHES, node);
    struct rows own = {all.first, all.first};
    while (own.first < all.end && cell(g, CATCHES, own.first, 1) < exception)
        own.first++;
    own.end = own.first;
    while (own.end < all.end && cell(g, CATCHES, own.end, 1) == exception)
        own.end++;
    return own;
}

/* Those that apply: of the exception or, if it has none here, of its nearest
 * ancestor that has some. */
static struct rows catches_of(const struct graph *g, unsigned node,
                              unsigned exception)
{
    struct rows catches = {0, 0};
    while (catches.first == catches.end && exception != NO_PARENT) {
        catches = own_catches(g, node, exception);
        exception = parent_of(g, exception);
    }
    return catches;
}

/* ---- Answers 1 to 9, 15 and 17 ---- */

/* Rows are compared field by field, so equal rows are not above. */
static bool is_above(const struct graph *g, enum table t, unsigned row)
{
    if (row == 0)
        return true;
    for (unsigned field = 0; field < row_bytes[t] / 2; field++) {
        unsigned before = cell(g, t, row - 1, field);
        unsigned here = cell(g, t, row, field);
        if (here != before)
            return here > before;
    }
    return false;
}

static bool joins_two_methods(const struct graph *g, unsigned from, unsigned to)
{
    return method_of(g, from) != method_of(g, to);
}

static bool bad_entry(const struct graph *g, unsigned row)
{
    unsigned entry = entry_of(g, row);
    return entry >= g->count[NODES] || method_of(g, entry) != row;
}

static bool bad_node(const struct graph *g, unsigned row)
{
    unsigned number = number_of(g, row);
    unsigned count = count_of(g, row);
    unsigned rights = rights_of(g, row);
    if (method_of(g, row) >= g->count[METHODS])
        return true;
    switch (kind_of(g, row)) {
    case PLAIN:
    case RETURN:
        return number != 0 || count != 0 || rights != 0;
    case GRANT:
        return number >= g->count[OPENING];
    case DRAW:
        return number >= g->count[OPENING] || count != 0;
    case CALL:
        return number != 0 || count == 0 || rights != 0;
    case THROW:
        return number >= EXCEPTIONS || count != 0 || rights != 0;
    default:
        return true;
    }
}

static bool bad_flow(const struct graph *g, unsigned row)
{
    unsigned from = cell(g, FLOW, row, 0);
    unsigned to = cell(g, FLOW, row, 1);
    if (from >= g->count[NODES] || to >= g->count[NODES])
        return true;
    return kind_of(g, from) == RETURN || kind_of(g, from) == THROW
        || joins_two_methods(g, from, to) || !is_above(g, FLOW, row);
}

static bool bad_call(const struct graph *g, unsigned row)
{
    unsigned node = cell(g, CALLS, row, 0);
    return node >= g->count[NODES] || kind_of(g, node) != CALL
        || cell(g, CALLS, row, 1) >= g->count[METHODS]
        || !is_above(g, CALLS, row);
}

static bool bad_parent(const struct graph *g, unsigned exception)
{
    unsigned parent = parent_of(g, exception);
    return parent >= exception && parent != NO_PARENT;
}

/* Whether an exception is the thrown one or an ancestor of it. */
static bool is_kin(const struct graph *g, unsigned exception, unsigned thrown)
{
    while (thrown != exception && thrown != NO_PARENT)
        thrown = parent_of(g, thrown);
    return thrown == exception;
}

/* Parents are judged before, so that climbing ends. */
static bool bad_catch(const struct graph *g, unsigned row)
{
    unsigned from = cell(g, CATCHES, row, 0);
    unsigned exception = cell(g, CATCHES, row, 1);
    unsigned to = cell(g, CATCHES, row, 2);
    if (from >= g->count[NODES] || to >= g->count[NODES]
        || exception >= EXCEPTIONS)
        return true;
    if (kind_of(g, from) == THROW && !is_kin(g, exception, number_of(g, from)))
        return true;
    return (kind_of(g, from) != CALL && kind_of(g, from) != THROW)
        || joins_two_methods(g, from, to) || !is_above(g, CATCHES, row);
}

static bool bad_opening(const struct graph *g, unsigned row)
{
    return cell(g, OPENING, row, 1) > 255;
}

/* Answers 1 to 3, and where the tables stand. */
static uint64_t judge_trailer(struct graph *g, const uint8_t *bytes,
                              size_t length)
{
    static const unsigned fewest[TABLES] = {1, 1, 0, 0, 0, 1};
    static const unsigned most[TABLES] = {MOST_METHODS, MOST_NODES, MOST_FLOW,
                                          MOST_CALLS, MOST_CATCHES, MOST_TYPES};
    size_t distance = 0;
    if (length < TRAILER_BYTES)
        return packed(1, 0);
    const uint8_t *trailer = bytes + length - TRAILER_BYTES;
    g->bytes = bytes;
    for (unsigned t = 0; t < TABLES; t++) {
        g->count[t] = read_word(trailer + 2 * t);
        if (g->count[t] < fewest[t] || g->count[t] > most[t])
            return packed(2, t);
        if (t == CATCHES)
            distance += EXCEPTIONS;
        g->start[t] = distance;
        distance += g->count[t] * (size_t)row_bytes[t];
    }
    if (read_word(trailer + 2 * TABLES) != distance
        || length != distance + TRAILER_BYTES)
        return packed(3, 0);
    return 0;
}

/* Answers 4 to 9, one for each table. */
static uint64_t judge_table(const struct graph *g, enum table t)
{
    static bool (*const bad[TABLES])(const struct graph *, unsigned) = {
        bad_entry, bad_node, bad_flow, bad_call, bad_catch, bad_opening};
    for (unsigned row = 0; row < g->count[t]; row++)
        if (bad[t](g, row))
            return t == NODES ? with_line(g, packed(5, row))
                              : packed(4 + t, row);
    return 0;
}

/* Answer 15. */
static uint64_t judge_parents(const struct graph *g)
{
    for (unsigned exception = 0; exception < EXCEPTIONS; exception++)
        if (bad_parent(g, exception))
            return packed(15, exception);
    return 0;
}

static void find_rows(struct graph *g)
{
    for (unsigned t = FLOW; t <= CATCHES; t++) {
        unsigned row = 0;
        for (unsigned node = 0; node <= g->count[NODES]; node++) {
            while (row < g->count[t] && cell(g, t, row, 0) < node)
                row++;
            g->first_row[t - FLOW][node] = row;
        }
    }
}

/* Answer 17. */
static uint64_t judge_calls_to_nobody(const struct graph *g)
{
    for (unsigned node = 0; node < g->count[NODES]; node++) {
        struct rows calls = rows_of(g, CALLS, node);
        if (kind_of(g, node) == CALL && calls.first == calls.end)
            return with_line(g, packed(17, node));
    }
    return 0;
}

/* Answers 1 to 7, 15, 8, 17 and 9. The graph is ready for use after 0. */
static uint64_t judge_file(struct graph *g, const uint8_t *bytes, size_t length)
{
    uint64_t refusal = judge_trailer(g, bytes, length);
    for (unsigned t = METHODS; t <= CALLS && refusal == 0; t++)
        refusal = judge_table(g, t);
    if (refusal == 0)
        refusal = judge_parents(g);
    if (refusal == 0)
        refusal = judge_table(g, CATCHES);
    if (refusal != 0)
        return refusal;
    g->shape = (struct shape){g->count[METHODS], g->count[NODES],
                              g->count[OPENING]};
    find_rows(g);
    refusal = judge_calls_to_nobody(g);
    return refusal != 0 ? refusal : judge_table(g, OPENING);
}

/* The file's answers, then 10. */
static uint64_t judge(struct graph *g, const uint8_t *bytes, size_t length,
                      size_t sheet_len)
{
    uint64_t refusal = judge_file(g, bytes, length);
    if (refusal == 0 && sheet_len != sheet_bytes(g->shape))
        return packed(10, 0);
    return refusal;
}

/* ---- Effects of all types ---- */

static void then_all(const struct graph *g, struct effects *result,
                     const struct effects *first, const struct effects *second)
{
    for (unsigned t = 0; t < g->shape.types; t++)
        result->of[t] = then(first->of[t], second->of[t]);
}

enum { NOTHING_FAILS = MARK_MISSING + 1 };

/* What is asked of a block is "mark 1 and at most this": the lowest type in
 * which it is more. One that lacks its mark is not compared. */
static unsigned failing_type(const struct graph *g, const uint8_t *sheet,
                             unsigned block, const struct effects *most)
{
    struct effects e;
    if (!read_block(g->shape, sheet, block, &e))
        return MARK_MISSING;
    for (unsigned t = 0; t < g->shape.types; t++)
        if (!at_most(e.of[t], most->of[t]))
            return t;
    return NOTHING_FAILS;
}

static struct effect step_of(const struct graph *g, unsigned node)
{
    if (kind_of(g, node) == GRANT)
        return grant(rights_of(g, node), count_of(g, node));
    return draw();
}

/* ---- The rules ---- */

/* What a rule says of a block, "mark 1 and at most this", goes to a taker:
 * check tests the block, work out lowers it. */
typedef void take(void *taker, unsigned rule, unsigned block,
                  const struct effects *most);

struct desk {
    const struct graph *graph;
    const uint8_t *sheet;
    take *take;
    void *taker;
};

static void say(const struct desk *d, unsigned rule, unsigned block,
                const struct effects *most)
{
    d->take(d->taker, rule, block, most);
}

static bool read(const struct desk *d, unsigned block, struct effects *e)
{
    return read_block(d->graph->shape, d->sheet, block, e);
}

static void say_to_nodes(const struct desk *d, unsigned rule, enum table t,
                         struct rows rows, const struct effects *most)
{
    const unsigned to = t == CATCHES ? 2 : 1;
    for (unsigned row = rows.first; row < rows.end; row++)
        say(d, rule, node_block(d->graph->shape, cell(d->graph, t, row, to)),
            most);
}

/* Rules 1 and 2. */
static void say_beginnings(const struct desk *d)
{
    const struct graph *g = d->graph;
    struct effects opening, nothing;
    for (unsigned t = 0; t < g->shape.types; t++) {
        opening.of[t] = grant(cell(g, OPENING, t, 0), cell(g, OPENING, t, 1));
        nothing.of[t] = nothing_done();
    }
    say(d, 1, stock_block(0), &opening);
    for (unsigned m = 0; m < g->count[METHODS]; m++)
        say(d, 2, node_block(g->shape, entry_of(g, m)), &nothing);
}

/* Rule 3. */
static void say_step(const struct desk *d, unsigned node, struct effects *e)
{
    const struct graph *g = d->graph;
    if (kind_of(g, node) != PLAIN) {
        struct effect *one = &e->of[number_of(g, node)];
        *one = then(*one, step_of(g, node));
    }
    say_to_nodes(d, 3, FLOW, rows_of(g, FLOW, node), e);
}

/* An exception at a throw or a call: catch rows that apply take it, or it
 * leaves as what it is. */
static void say_exception(const struct desk *d, unsigned caught_rule,
                          unsigned leaving_rule, unsigned node,
                          unsigned exception, const struct effects *e)
{
    struct rows catches = catches_of(d->graph, node, exception);
    if (catches.first < catches.end)
        say_to_nodes(d, caught_rule, CATCHES, catches, e);
    else
        say(d, leaving_rule,
            exit_block(method_of(d->graph, node), 1 + exception), e);
}

/* A marked call with one of the methods it calls, as the sheet has them. */
struct call {
    unsigned node, method;
    bool returns;          /* exit 0 of the method is marked */
    struct effects before; /* the call's effect, then exit 0 taken 0 times, and
                              if it returns 1 to repeats - 1 times */
    struct effects after;  /* if it returns: 1 to repeats times */
};

/* Effects are monotone on each count and right, so "both" may be taken before
 * a further "then" instead of after it. */
static bool read_call(const struct desk *d, unsigned row, struct call *c)
{
    const struct graph *g = d->graph;
    struct effects exit;
    c->node = cell(g, CALLS, row, 0);
    c->method = cell(g, CALLS, row, 1);
    if (!read(d, node_block(g->shape, c->node), &c->before))
        return false;
    c->returns = read(d, exit_block(c->method, 0), &exit);
    if (!c->returns)
        return true;
    unsigned repeats = count_of(g, c->node);
    for (unsigned t = 0; t < g->shape.types; t++) {
        struct effect call = c->before.of[t];
        c->after.of[t] = then(call, taken(exit.of[t], repeats));
        if (repeats > 1)
            c->before.of[t] =
                both(call, then(call, taken(exit.of[t], repeats - 1)));
    }
    return true;
}

/* Rule 7. */
static void say_returned(const struct desk *d, const struct call *c)
{
    if (c->returns)
        say_to_nodes(d, 7, FLOW, rows_of(d->graph, FLOW, c->node), &c->after);
}

/* Rule 8. A method's stock then an effect is that effect applied to it. */
static void say_entered(const struct desk *d, const struct call *c)
{
    struct effects stock, entered;
    if (!read(d, stock_block(method_of(d->graph, c->node)), &stock))
        return;
    then_all(d->graph, &entered, &stock, &c->before);
    say(d, 8, stock_block(c->method), &entered);
}

/* Rules 9 and 10 for one exception. */
static void say_thrown(const struct desk *d, const struct call *c,
                       unsigned exception)
{
    struct effects exit, thrown;
    if (!read(d, exit_block(c->method, 1 + exception), &exit))
        return;
    then_all(d->graph, &thrown, &c->before, &exit);
    say_exception(d, 9, 10, c->node, exception, &thrown);
}

/* Rules 7 to 10. */
static void say_call_row(const struct desk *d, unsigned row)
{
    struct call c;
    if (!read_call(d, row, &c))
        return;
    say_returned(d, &c);
    say_entered(d, &c);
    for (unsigned exception = 0; exception < EXCEPTIONS; exception++)
        say_thrown(d, &c, exception);
}

/* Rules 3 to 10 from one node. */
static void say_node(const struct desk *d, unsigned node)
{
    const struct graph *g = d->graph;
    struct effects e;
    if (!read(d, node_block(g->shape, node), &e))
        return;
    switch (kind_of(g, node)) {
    case CALL: {
        struct rows calls = rows_of(g, CALLS, node);
        for (unsigned row = calls.first; row < calls.end; row++)
            say_call_row(d, row);
        break;
    }
    case RETURN:
        say(d, 5, exit_block(method_of(g, node), 0), &e);
        break;
    case THROW:
        say_exception(d, 4, 6, node, number_of(g, node), &e);
        break;
    default:
        say_step(d, node, &e);
    }
}

/* ---- The verdict ---- */

/* Answers 13 and 0. */
static uint64_t verdict(const struct graph *g, const uint8_t *sheet)
{
    for (unsigned node = 0; node < g->count[NODES]; node++) {
        struct effects stock, e;
        if (kind_of(g, node) != DRAW
            || !read_block(g->shape, sheet, stock_block(method_of(g, node)),
                           &stock)
            || !read_block(g->shape, sheet, node_block(g->shape, node), &e))
            continue;
        unsigned t = number_of(g, node);
        if (!covers(then(stock.of[t], e.of[t]), rights_of(g, node)))
            return with_line(g, packed_type(13, t, node));
    }
    return 0;
}

/* ---- Work out ---- */

/* Answers whether the block had to change. */
static bool lower(const struct graph *g, uint8_t *sheet, unsigned block,
                  const struct effects *most)
{
    struct effects now;
    if (failing_type(g, sheet, block, most) == NOTHING_FAILS)
        return false;
    if (!read_block(g->shape, sheet, block, &now)) {
        write_block(g->shape, sheet, block, most);
        return true;
    }
    for (unsigned t = 0; t < g->shape.types; t++)
        now.of[t] = both(now.of[t], most->of[t]);
    write_block(g->shape, sheet, block, &now);
    return true;
}

struct sweeper {
    const struct graph *graph;
    uint8_t *sheet;
    bool changed;
};

static void lower_and_note(void *taker, unsigned rule, unsigned block,
                           const struct effects *most)
{
    struct sweeper *s = taker;
    (void)rule;
    if (lower(s->graph, s->sheet, block, most))
        s->changed = true;
}

uint64_t peer_work_out_sweeping(const uint8_t *graph, size_t graph_len,
                                uint8_t *sheet, size_t sheet_len)
{
    struct graph g;
    uint64_t refusal = judge(&g, graph, graph_len, sheet_len);
    if (refusal != 0)
        return refusal;
    struct sweeper s = {&g, sheet, true};
    struct desk d = {&g, sheet, lower_and_note, &s};
    memset(sheet, 0, sheet_len);
    say_beginnings(&d);
    for (bool forwards = true; s.changed; forwards = !forwards) {
        s.changed = false;
        for (unsigned i = 0; i < g.count[NODES]; i++)
            say_node(&d, forwards ? i : g.count[NODES] - 1 - i);
    }
    return verdict(&g, sheet);
}

/* Call rows in chains, by the method called and by the method that calls. */
struct chains {
    unsigned called[MOST_METHODS], next_called[MOST_CALLS];
    unsigned calling[MOST_METHODS], next_calling[MOST_CALLS];
};

enum { NO_ROW = MOST_CALLS };

/* Blocks that changed and wait for their dependents to be looked at again. */
struct worklist {
    const struct graph *graph;
    uint8_t *sheet;
    unsigned first, length;
    uint16_t block[MOST_BLOCKS];
    bool waits[MOST_BLOCKS];
};

static void chain_calls(const struct graph *g, struct chains *c)
{
    for (unsigned m = 0; m < g->count[METHODS]; m++)
        c->called[m] = c->calling[m] = NO_ROW;
    for (unsigned row = 0; row < g->count[CALLS]; row++) {
        unsigned caller = method_of(g, cell(g, CALLS, row, 0));
        unsigned method = cell(g, CALLS, row, 1);
        c->next_calling[row] = c->calling[caller];
        c->calling[caller] = row;
        c->next_called[row] = c->called[method];
        c->called[method] = row;
    }
}

static void lower_and_queue(void *taker, unsigned rule, unsigned block,
                            const struct effects *most)
{
    struct worklist *w = taker;
    (void)rule;
    if (!lower(w->graph, w->sheet, block, most) || w->waits[block])
        return;
    w->waits[block] = true;
    w->block[(w->first + w->length) % MOST_BLOCKS] = (uint16_t)block;
    w->length++;
}

static unsigned next_block(struct worklist *w)
{
    unsigned block = w->block[w->first];
    w->first = (w->first + 1) % MOST_BLOCKS;
    w->length--;
    w->waits[block] = false;
    return block;
}

/* A method's stock bounds the stock of the methods that it calls. */
static void look_at_called(const struct desk *d, const struct chains *chains,
                           unsigned method)
{
    for (unsigned row = chains->calling[method]; row != NO_ROW;
         row = chains->next_calling[row]) {
        struct call c;
        if (read_call(d, row, &c))
            say_entered(d, &c);
    }
}

/* The return matters to all rules of its callers, an exception to its own. */
static void look_at_callers(const struct desk *d, const struct chains *chains,
                            unsigned method, unsigned exit)
{
    for (unsigned row = chains->called[method]; row != NO_ROW;
         row = chains->next_called[row]) {
        struct call c;
        if (exit == 0)
            say_call_row(d, row);
        else if (read_call(d, row, &c))
            say_thrown(d, &c, exit - 1);
    }
}

static void look_again(const struct desk *d, const struct chains *chains,
                       unsigned block)
{
    struct shape s = d->graph->shape;
    unsigned method = block / METHOD_BLOCKS;
    if (block >= node_block(s, 0))
        say_node(d, block - node_block(s, 0));
    else if (is_stock(s, block))
        look_at_called(d, chains, method);
    else
        look_at_callers(d, chains, method, block - exit_block(method, 0));
}

/* Of a sheet with the right length. */
static uint64_t work_out_by_list(const struct graph *g, uint8_t *sheet)
{
    struct chains chains;
    struct worklist w = {.graph = g, .sheet = sheet};
    struct desk d = {g, sheet, lower_and_queue, &w};
    chain_calls(g, &chains);
    memset(sheet, 0, sheet_bytes(g->shape));
    say_beginnings(&d);
    while (w.length > 0)
        look_again(&d, &chains, next_block(&w));
    return verdict(g, sheet);
}

uint64_t peer_work_out(const uint8_t *graph, size_t graph_len,
                       uint8_t *sheet, size_t sheet_len)
{
    struct graph g;
    uint64_t refusal = judge(&g, graph, graph_len, sheet_len);
    return refusal != 0 ? refusal : work_out_by_list(&g, sheet);
}

uint64_t peer_work_out_queued(const uint8_t *graph, size_t graph_len,
                              uint8_t *sheet, size_t sheet_len,
                              uint8_t *area, size_t area_len)
{
    struct graph g;
    uint64_t refusal = judge(&g, graph, graph_len, sheet_len);
    if (refusal != 0)
        return refusal;
    if (area_len != AREA_BYTES)
        return packed(23, 0);
    memset(area, 0, AREA_BYTES);
    return work_out_by_list(&g, sheet);
}

/* ---- Check ---- */

static bool is_ill_formed(const struct graph *g, const uint8_t *sheet,
                          unsigned block)
{
    const uint8_t *at = sheet + 2 * (size_t)block_at(g->shape, block);
    struct effects e;
    if (read_word(at) > 1)
        return true;
    if (!read_block(g->shape, sheet, block, &e)) {
        for (unsigned w = 1; w <= block_words(g->shape, block); w++)
            if (read_word(at + 2 * w) != 0)
                return true;
        return false;
    }
    for (unsigned t = 0; t < g->shape.types; t++)
        if (!is_normal(e.of[t]))
            return true;
    return false;
}

struct tester {
    const struct graph *graph;
    const uint8_t *sheet;
    unsigned rule; /* the lowest broken one, above RULES while there is none */
    unsigned type; /* the lowest that fails in any place where it is broken */
};

/* MARK_MISSING is above all types, so it stays only where marks alone are
 * missing. */
static void test(void *taker, unsigned rule, unsigned block,
                 const struct effects *most)
{
    struct tester *t = taker;
    if (rule > t->rule)
        return;
    unsigned type = failing_type(t->graph, t->sheet, block, most);
    if (type == NOTHING_FAILS || (rule == t->rule && type >= t->type))
        return;
    t->rule = rule;
    t->type = type;
}

/* Answers 12 and 0. */
static uint64_t judge_rules(const struct graph *g, const uint8_t *sheet)
{
    struct tester t = {g, sheet, RULES + 1, NOTHING_FAILS};
    struct desk d = {g, sheet, test, &t};
    say_beginnings(&d);
    for (unsigned node = 0; node < g->count[NODES]; node++)
        say_node(&d, node);
    return t.rule > RULES ? 0 : packed_type(12, t.type, t.rule);
}

/* Answers 11 to 13 and 0, of a sheet with the right length. */
static uint64_t judge_sheet(const struct graph *g, const uint8_t *sheet)
{
    for (unsigned block = 0; block < block_count(g->shape); block++)
        if (is_ill_formed(g, sheet, block))
            return packed(11, block_at(g->shape, block));
    uint64_t broken = judge_rules(g, sheet);
    return broken != 0 ? broken : verdict(g, sheet);
}

uint64_t peer_check(const uint8_t *graph, size_t graph_len,
                    const uint8_t *sheet, size_t sheet_len)
{
    struct graph g;
    uint64_t refusal = judge(&g, graph, graph_len, sheet_len);
    return refusal != 0 ? refusal : judge_sheet(&g, sheet);
}

uint64_t peer_check_many(const uint8_t *graph, size_t graph_len,
                         const uint8_t *sheets, size_t sheets_len,
                         uint32_t *row, size_t row_len)
{
    struct graph g;
    uint64_t refusal = judge_file(&g, graph, graph_len);
    if (refusal != 0)
        return refusal;
    size_t one = sheet_bytes(g.shape), count = sheets_len / one;
    if (sheets_len % one != 0 || count < 1 || count > MOST_SHEETS
        || row_len != 2 * count)
        return packed(24, 0);
    for (size_t i = 0; i < count; i++) {
        uint64_t answer = judge_sheet(&g, sheets + i * one);
        row[2 * i] = number_in(answer);
        row[2 * i + 1] = place_in(answer);
    }
    return 0;
}

/* ---- Profiles ---- */

/* Notes the nodes that break a profile. */
typedef void find_unfit(const struct graph *g, bool unfit[MOST_NODES]);

static bool asks_for(const struct graph *g, unsigned node, unsigned drawn)
{
    return kind_of(g, node) == GRANT && count_of(g, node) == 1
        && number_of(g, node) == number_of(g, drawn)
        && (rights_of(g, drawn) & ~rights_of(g, node)) == 0;
}

static void note_draw(const struct graph *g, bool unfit[MOST_NODES],
                      unsigned node)
{
    if (kind_of(g, node) == DRAW)
        unfit[node] = true;
}

/* What leads to a draw must be a flow row from a grant just for it. */
static void find_unfit_draws(const struct graph *g, bool unfit[MOST_NODES])
{
    for (unsigned m = 0; m < g->count[METHODS]; m++)
        note_draw(g, unfit, entry_of(g, m));
    for (unsigned row = 0; row < g->count[FLOW]; row++) {
        unsigned to = cell(g, FLOW, row, 1);
        if (!asks_for(g, cell(g, FLOW, row, 0), to))
            note_draw(g, unfit, to);
    }
    for (unsigned row = 0; row < g->count[CATCHES]; row++)
        note_draw(g, unfit, cell(g, CATCHES, row, 2));
}

/* Grants stand in method 0 and are endless; nothing calls method 0. */
static void find_unfit_asking(const struct graph *g, bool unfit[MOST_NODES])
{
    for (unsigned node = 0; node < g->count[NODES]; node++)
        unfit[node] = kind_of(g, node) == GRANT
                   && (method_of(g, node) != 0 || count_of(g, node) != ENDLESS);
    for (unsigned row = 0; row < g->count[CALLS]; row++)
        if (cell(g, CALLS, row, 1) == 0)
            unfit[cell(g, CALLS, row, 0)] = true;
}

/* The file's answers, 14 and 0. */
static uint64_t judge_profile(const uint8_t *graph, size_t graph_len,
                              find_unfit *find)
{
    struct graph g;
    bool unfit[MOST_NODES] = {false};
    uint64_t refusal = judge_file(&g, graph, graph_len);
    if (refusal != 0)
        return refusal;
    find(&g, unfit);
    for (unsigned node = 0; node < g.count[NODES]; node++)
        if (unfit[node])
            return with_line(&g, packed(14, node));
    return 0;
}

uint64_t peer_one_shot(const uint8_t *graph, size_t graph_len)
{
    return judge_profile(graph, graph_len, find_unfit_draws);
}

uint64_t peer_session(const uint8_t *graph, size_t graph_len)
{
    return judge_profile(graph, graph_len, find_unfit_asking);
}
