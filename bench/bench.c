/* Measures Snellair and the peer in one process, in turn, on the same graphs.
 * Every graph from the third on has 512 nodes and six types. */
#define _POSIX_C_SOURCE 199309L

#include "cases.h"
#include "peer.h"
#include "snellair.h"

#include <stdio.h>
#include <stdlib.h>
#include <string.h>
#include <time.h>

enum operation {
    SNELLAIR_QUEUED,
    WORKLIST,
    SNELLAIR,
    SWEEPING,
    SNELLAIR_CHECK,
    PEER_CHECK,
    SNELLAIR_ONE_SHOT,
    PEER_ONE_SHOT,
    SNELLAIR_SESSION,
    PEER_SESSION,
    SNELLAIR_MANY,
    SNELLAIR_ONE_BY_ONE,
    PEER_ONE_BY_ONE,
    SNELLAIR_JUDGEMENT,
    OPERATIONS
};

enum { ROUNDS = 5, MANY = (int)SNELLAIR_MOST_SHEETS };

static const double shortest = 20000; /* of one measurement, in microseconds */
static const double longest = 1e6;    /* of what is measured in every round */

struct subject {
    uint8_t graph[MOST_GRAPH_BYTES], sheet[MOST_SHEET_BYTES];
    uint8_t sheets[MANY * MOST_SHEET_BYTES]; /* the sheet, so many times */
    uint8_t area[SNELLAIR_AREA_BYTES];
    size_t graph_len, sheet_len;
};

typedef uint64_t check(const uint8_t *graph, size_t graph_len,
                       const uint8_t *sheet, size_t sheet_len);

/* The answer for the last of the sheets, where all are checked one by one. */
static uint64_t check_one_by_one(check *check_one, const struct subject *s)
{
    uint64_t answer = 0;
    for (size_t i = 0; i < MANY; i++)
        answer = check_one(s->graph, s->graph_len, s->sheets + i * s->sheet_len,
                           s->sheet_len);
    return answer;
}

static uint64_t check_many(const struct subject *s)
{
    uint32_t row[2 * MANY];
    return snellair_check_many(s->graph, s->graph_len, s->sheets,
                               MANY * s->sheet_len, row, 2 * MANY);
}

static uint64_t operate(enum operation operation, struct subject *s)
{
    switch (operation) {
    case SNELLAIR_QUEUED:
        return snellair_work_out_queued(s->graph, s->graph_len, s->sheet,
                                        s->sheet_len, s->area, sizeof s->area);
    case SNELLAIR:
        return snellair_work_out(s->graph, s->graph_len, s->sheet,
                                 s->sheet_len);
    case SWEEPING:
        return peer_work_out_sweeping(s->graph, s->graph_len, s->sheet,
                                      s->sheet_len);
    case WORKLIST:
        return peer_work_out(s->graph, s->graph_len, s->sheet, s->sheet_len);
    case SNELLAIR_CHECK:
        return snellair_check(s->graph, s->graph_len, s->sheet, s->sheet_len);
    case PEER_CHECK:
        return peer_check(s->graph, s->graph_len, s->sheet, s->sheet_len);
    case SNELLAIR_ONE_SHOT:
        return snellair_one_shot(s->graph, s->graph_len);
    case PEER_ONE_SHOT:
        return peer_one_shot(s->graph, s->graph_len);
    case SNELLAIR_SESSION:
        return snellair_session(s->graph, s->graph_len);
    case PEER_SESSION:
        return peer_session(s->graph, s->graph_len);
    case SNELLAIR_MANY:
        return check_many(s);
    case SNELLAIR_ONE_BY_ONE:
        return check_one_by_one(snellair_check, s);
    case PEER_ONE_BY_ONE:
        return check_one_by_one(peer_check, s);
    default: /* with no sheet, check does no more than judge the graph */
        return snellair_check(s->graph, s->graph_len, NULL, 0);
    }
}

/* Of the operations from the first to the last. A time for different answers,
 * or for a refusal, would mean nothing. */
static void expect_same_answers(struct subject *s, enum operation first_one,
                                enum operation last, const char *name)
{
    uint8_t first[MOST_SHEET_BYTES];
    uint64_t answer = operate(first_one, s);
    memcpy(first, s->sheet, s->sheet_len);
    if (answer != 0 && SNELLAIR_NUMBER(answer) != SNELLAIR_OVERDRAWN) {
        printf("%s: refused\n", name);
        exit(1);
    }
    for (enum operation o = first_one + 1; o <= last; o++)
        if (operate(o, s) != answer
            || memcmp(first, s->sheet, s->sheet_len) != 0) {
            printf("%s: the answers differ\n", name);
            exit(1);
        }
}

static double now(void)
{
    struct timespec t;
    clock_gettime(CLOCK_MONOTONIC, &t);
    return (double)t.tv_sec * 1e6 + (double)t.tv_nsec / 1e3;
}

static double time_of(enum operation operation, struct subject *s, unsigned times)
{
    double start = now();
    for (unsigned i = 0; i < times; i++)
        operate(operation, s);
    return now() - start;
}

static unsigned times_needed(enum operation operation, struct subject *s)
{
    unsigned times = 1;
    while (time_of(operation, s, times) < shortest)
        times *= 2;
    return times;
}

static int compare_doubles(const void *a, const void *b)
{
    double x = *(const double *)a, y = *(const double *)b;
    return (x > y) - (x < y);
}

/* In turn, so that a slow spell of the machine strikes all alike. */
static void measure(struct subject *s, enum operation first,
                    enum operation last, double median[OPERATIONS])
{
    double taken[OPERATIONS][ROUNDS];
    unsigned times[OPERATIONS];
    for (enum operation o = first; o <= last; o++)
        times[o] = times_needed(o, s);
    for (unsigned round = 0; round < ROUNDS; round++)
        for (enum operation o = first; o <= last; o++)
            taken[o][round] = round > 0 && taken[o][0] > longest
                                  ? taken[o][0]
                                  : time_of(o, s, times[o]) / times[o];
    for (enum operation o = first; o <= last; o++) {
        qsort(taken[o], ROUNDS, sizeof(double), compare_doubles);
        median[o] = taken[o][ROUNDS / 2];
    }
}

static void write_graph(const struct draft *d, struct subject *s)
{
    s->graph_len = draft_write(d, s->graph);
    s->sheet_len = sheet_bytes(draft_shape(d));
}

static void build_case(const struct bench_case *c, struct subject *s)
{
    static struct draft d;
    c->build(&d);
    write_graph(&d, s);
}

static void measure_case(const struct bench_case *c, struct subject *s,
                         enum operation first, enum operation last,
                         double median[OPERATIONS])
{
    build_case(c, s);
    expect_same_answers(s, first, last, c->name);
    measure(s, first, last, median);
}

/* A column's worst ratio, and what it may be at most. */
struct goal {
    double most, worst;
    const char *where;
};

static struct goal work_out_goal = {1.2, 0, ""}, check_goal = {0.8, 0, ""};
/* where Snellair's order takes twice the peer's sweeps */
static const char random_graph[] = "any limit-size graph";
static struct goal random_goal = {2.2, 0, ""};
/* the queue against the peer's worklist; against Snellair's own sweeps, on the
 * typical add-on and where they take longest */
static struct goal queue_goal = {1.2, 0, ""}, addon_goal = {1, 0, ""},
                   longest_goal = {0.01, 0, ""};
static double longest_sweeping;

static void note_ratio(struct goal *g, double ratio, const char *where)
{
    if (ratio > g->worst) {
        g->worst = ratio;
        g->where = where;
    }
}

/* Whether the goal is met. */
static int print_goal(const char *column, const struct goal *g)
{
    printf("%-30s | %7.4f of at most %4.2f, %s\n", column, g->worst, g->most,
           g->where);
    return g->worst <= g->most;
}

static int print_goals(void)
{
    printf("\n");
    int work_out = print_goal("worst ratio, work out", &work_out_goal);
    int random = print_goal("", &random_goal);
    int check = print_goal("worst ratio, check", &check_goal);
    int queue = print_goal("worst ratio, queue", &queue_goal);
    int addon = print_goal("queue over sweeping", &addon_goal);
    int longest = print_goal("", &longest_goal);
    return work_out && random && check && queue && addon && longest;
}

/* Work out and check, by Snellair and by the peer. */
static void print_costs(const char *name, const double cost[OPERATIONS])
{
    double work_out = cost[SNELLAIR] / cost[SWEEPING];
    double check = cost[SNELLAIR_CHECK] / cost[PEER_CHECK];
    printf("%-30s | %11.1f %11.1f %6.2f %11.1f | %9.1f %9.1f %6.2f\n", name,
           cost[SNELLAIR], cost[SWEEPING], work_out, cost[WORKLIST],
           cost[SNELLAIR_CHECK], cost[PEER_CHECK], check);
    fflush(stdout);
    int random = strcmp(name, random_graph) == 0;
    note_ratio(random ? &random_goal : &work_out_goal, work_out, name);
    note_ratio(&check_goal, check, name);
}

static void print_heading(const char *unit)
{
    printf("%-30s | %-42s | %-26s\n", unit, "work out", "check");
    printf("%-30s | %11s %11s %6s %11s | %9s %9s %6s\n", "", "snellair",
           "sweeping", "ratio", "worklist", "snellair", "peer", "ratio");
}

/* Snellair's queue against the peer's worklist, and against its own sweeps. */
static void print_queue_costs(const char *name, const double cost[OPERATIONS])
{
    printf("%-30s | %11.1f %11.1f %6.2f | %11.1f %8.4f\n", name,
           cost[SNELLAIR_QUEUED], cost[WORKLIST],
           cost[SNELLAIR_QUEUED] / cost[WORKLIST], cost[SNELLAIR],
           cost[SNELLAIR_QUEUED] / cost[SNELLAIR]);
    fflush(stdout);
}

static void print_queue_row(const char *name, const double cost[OPERATIONS])
{
    double worklist = cost[SNELLAIR_QUEUED] / cost[WORKLIST];
    double sweeping = cost[SNELLAIR_QUEUED] / cost[SNELLAIR];
    print_queue_costs(name, cost);
    note_ratio(&queue_goal, worklist, name);
    if (strcmp(name, bench_cases[ADDON].name) == 0)
        note_ratio(&addon_goal, sweeping, name);
    if (cost[SNELLAIR] > longest_sweeping) {
        longest_sweeping = cost[SNELLAIR];
        longest_goal.worst = sweeping;
        longest_goal.where = name;
    }
}

static void print_queue_heading(const char *unit)
{
    printf("\n%-30s | %-30s | %-20s\n", unit, "with a queue", "by sweeping");
    printf("%-30s | %11s %11s %6s | %11s %8s\n", "", "snellair", "worklist",
           "ratio", "snellair", "ratio");
}

static void print_case(const struct bench_case *c, struct subject *s)
{
    double us[OPERATIONS];
    measure_case(c, s, WORKLIST, PEER_CHECK, us);
    print_costs(c->name, us);
}

/* One operation, for a tool that counts what it takes. */
static int operate_once(const char *number, const char *operation,
                        struct subject *s)
{
    enum operation o = (enum operation)atoi(operation);
    build_case(&bench_cases[atoi(number)], s);
    if (o >= SNELLAIR_CHECK)
        operate(WORKLIST, s);
    operate(o, s);
    return 0;
}

/* The table of counts that were taken so, case by case, on standard input. */
static int print_counts(void)
{
    static double count[BENCH_CASES][OPERATIONS];
    print_heading("thousands of instructions");
    for (unsigned i = 0; i < BENCH_CASES; i++) {
        for (enum operation o = SNELLAIR_QUEUED; o <= PEER_CHECK; o++) {
            if (scanf("%lf", &count[i][o]) != 1)
                return 2;
            count[i][o] /= 1000;
        }
        print_costs(bench_cases[i].name, count[i]);
    }
    print_queue_heading("thousands of instructions");
    for (unsigned i = 0; i < BENCH_CASES; i++)
        print_queue_row(bench_cases[i].name, count[i]);
    return print_goals() ? 0 : 1;
}

/* One operation of Snellair and the peer's, which is the next. */
static void print_pair(const struct bench_case *c, struct subject *s,
                       enum operation snellairs)
{
    double us[OPERATIONS];
    measure_case(c, s, snellairs, snellairs + 1, us);
    printf("%-42s | %9.1f %9.1f %6.2f\n", c->name, us[snellairs],
           us[snellairs + 1], us[snellairs] / us[snellairs + 1]);
    fflush(stdout);
}

/* The row says of each sheet what check alone answers. */
static void expect_row(struct subject *s, const char *name)
{
    uint32_t row[2 * MANY];
    uint64_t one = operate(SNELLAIR_CHECK, s);
    uint64_t answer =
        snellair_check_many(s->graph, s->graph_len, s->sheets,
                            MANY * s->sheet_len, row, 2 * MANY);
    int same = answer == SNELLAIR_PASS;
    for (size_t i = 0; same && i < MANY; i++)
        same = row[2 * i] == SNELLAIR_NUMBER(one)
               && row[2 * i + 1] == SNELLAIR_PLACE(one);
    if (!same) {
        printf("%s: the row differs\n", name);
        exit(1);
    }
}

/* Twenty sheets in one call, in twenty calls, and by the peer. The one call must
 * cost no more than the twenty less nineteen judgements of the graph. */
static void print_many(const struct bench_case *c, struct subject *s)
{
    double us[OPERATIONS];
    build_case(c, s);
    operate(WORKLIST, s);
    for (size_t i = 0; i < MANY; i++)
        memcpy(s->sheets + i * s->sheet_len, s->sheet, s->sheet_len);
    expect_row(s, c->name);
    expect_same_answers(s, SNELLAIR_ONE_BY_ONE, PEER_ONE_BY_ONE, c->name);
    measure(s, SNELLAIR_MANY, SNELLAIR_JUDGEMENT, us);
    double most = us[SNELLAIR_ONE_BY_ONE] - (MANY - 1) * us[SNELLAIR_JUDGEMENT];
    printf("%-30s | %11.1f %11.1f %9.1f %11.1f %6.2f | %11.1f %6.2f\n", c->name,
           us[SNELLAIR_MANY], us[SNELLAIR_ONE_BY_ONE], us[SNELLAIR_JUDGEMENT],
           most, us[SNELLAIR_MANY] / most, us[PEER_ONE_BY_ONE],
           us[SNELLAIR_MANY] / us[PEER_ONE_BY_ONE]);
    fflush(stdout);
}

/* The one that is worst against the worklist, and the sum of them. */
static void print_limit_graphs(struct subject *s)
{
    static struct draft d;
    double us[OPERATIONS], worst[OPERATIONS], sum[OPERATIONS] = {0};
    for (unsigned i = 0; i < LIMIT_GRAPHS; i++) {
        build_limit_graph(&d, i);
        write_graph(&d, s);
        expect_same_answers(s, SNELLAIR_QUEUED, SNELLAIR, "limit-size graph");
        measure(s, SNELLAIR_QUEUED, SNELLAIR, us);
        for (enum operation o = SNELLAIR_QUEUED; o <= SNELLAIR; o++)
            sum[o] += us[o];
        if (i == 0 || us[SNELLAIR_QUEUED] * worst[WORKLIST] >
                          worst[SNELLAIR_QUEUED] * us[WORKLIST])
            memcpy(worst, us, sizeof us);
    }
    print_queue_row("limit-size graphs, worst of 20", worst);
    print_queue_costs("limit-size graphs, sum of 20", sum);
}

static void print_queued(const struct bench_case *c, struct subject *s)
{
    double us[OPERATIONS];
    measure_case(c, s, SNELLAIR_QUEUED, SNELLAIR, us);
    print_queue_row(c->name, us);
}

static void print_queue(struct subject *s)
{
    print_queue_heading("microseconds");
    for (unsigned i = 0; i < BENCH_CASES; i++)
        print_queued(&bench_cases[i], s);
    for (unsigned i = 0; i < RING_CASES; i++)
        print_queued(&ring_cases[i], s);
    print_limit_graphs(s);
}

int main(int words, char **word)
{
    static struct subject s;
    if (words == 2 && strcmp(word[1], "cases") == 0)
        return printf("%d\n", BENCH_CASES) < 0;
    if (words == 2 && strcmp(word[1], "counts") == 0)
        return print_counts();
    if (words == 3)
        return operate_once(word[1], word[2], &s);
    print_heading("microseconds");
    for (unsigned i = 0; i < BENCH_CASES; i++)
        print_case(&bench_cases[i], &s);
    printf("\n%-42s | %9s %9s %6s\n", "microseconds", "snellair", "peer",
           "ratio");
    print_pair(&one_shot_case, &s, SNELLAIR_ONE_SHOT);
    print_pair(&session_case, &s, SNELLAIR_SESSION);
    printf("\n%-30s | %11s %11s %9s %11s %6s | %11s %6s\n",
           "microseconds, twenty sheets", "one call", "twenty", "judgement",
           "at most", "ratio", "peer", "ratio");
    for (unsigned i = 0; i < BENCH_CASES; i++)
        print_many(&bench_cases[i], &s);
    print_queue(&s);
    return print_goals() ? 0 : 1;
}
