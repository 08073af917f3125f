/* What runs bring, found by following all of them, for very small graphs.
 *
 * This is document 01's part "Runs", with document 02's families of exceptions,
 * and nothing else: no effects, no rules. */
#ifndef PEER_RUNS_H
#define PEER_RUNS_H

#include "draft.h"

enum {
    RUN_TYPES = 2,
    RUN_NODES = 16,
    RUN_OPEN = 8,         /* calls open at a time */
    RUN_STATES = 1 << 14, /* looked at for one graph */
    RUN_SLOTS = 4 * RUN_STATES
};

struct open_call {
    uint8_t node, method, repeats_left;
};

/* A run that arrives at a node, with what it brings. */
struct arrival {
    uint8_t node, depth;
    struct open_call open[RUN_OPEN];
    uint8_t count[RUN_TYPES];
    uint16_t rights[RUN_TYPES];
};

/* Over all runs that arrive at one node. */
struct brought {
    bool arrived, overdrawn;
    unsigned fewest[RUN_TYPES];
    unsigned always[RUN_TYPES]; /* the rights that no run misses */
};

struct runs {
    bool all; /* no run was cut short by a limit */
    unsigned most_open;
    struct brought at[RUN_NODES];
    unsigned states;
    struct arrival state[RUN_STATES];
    unsigned slot[RUN_SLOTS]; /* 1 + the state that hashes there, or 0 */
};

/* Follows runs with at most so many open calls, RUN_OPEN or fewer. The graph
 * has at most RUN_NODES nodes and RUN_TYPES types. */
void follow_runs(const struct draft *d, unsigned most_open, struct runs *r);

#endif
