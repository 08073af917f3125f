/* The graphs that speed is measured on. */
#ifndef BENCH_CASES_H
#define BENCH_CASES_H

#include "draft.h"

struct bench_case {
    const char *name;
    void (*build)(struct draft *d);
};

enum { BENCH_CASES = 12, RING_CASES = 2, LIMIT_GRAPHS = 20 };

enum { ADDON = 1 }; /* the typical one of these */

extern const struct bench_case bench_cases[BENCH_CASES];

/* These take many sweeps, each of which changes little. */
extern const struct bench_case ring_cases[RING_CASES];

/* Any limit-size graph, another for each number. */
void build_limit_graph(struct draft *d, unsigned number);

/* Limit-size graphs that fit the profile. */
extern const struct bench_case one_shot_case, session_case;

#endif
