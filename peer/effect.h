/* Effects on one type of resource. Nothing here knows of graphs.
 *
 * A stock is kept as the grant of it: the effect that leaves just this stock,
 * whatever was there. Then "at most", "both" and "apply" (which is "then") of
 * stocks are those of effects. */
#ifndef PEER_EFFECT_H
#define PEER_EFFECT_H

#include <stdbool.h>

enum {
    ALL_RIGHTS = 0xFFFF,
    ENDLESS = 255, /* as a count, a cap or a drop */
    NO_DROP = 256  /* the count is the cap, whatever was there */
};

struct effect {
    unsigned keep_in, keep_max, cap, drop;
};

static inline unsigned smaller(unsigned a, unsigned b)
{
    return a < b ? a : b;
}

/* A finite count is below 255, so less endless is 0 without a case for it. */
static inline unsigned less(unsigned count, unsigned drop)
{
    if (count == ENDLESS)
        return ENDLESS;
    return count > drop ? count - drop : 0;
}

/* Takes every finite count to 0 from 254 on, which is what endless does. */
static inline unsigned drop_of(unsigned sum)
{
    return sum >= 254 ? ENDLESS : sum;
}

static inline unsigned larger_drop(unsigned a, unsigned b)
{
    if (a == NO_DROP)
        return b;
    return b == NO_DROP || a > b ? a : b;
}

static inline bool is_normal(struct effect e)
{
    return (e.keep_in & ~e.keep_max) == 0 && e.cap <= 255 && e.drop <= NO_DROP
        && e.drop != 254 && (e.cap != 0 || e.drop == NO_DROP);
}

static inline struct effect nothing_done(void)
{
    return (struct effect){0, ALL_RIGHTS, ENDLESS, 0};
}

static inline struct effect draw(void)
{
    return (struct effect){0, ALL_RIGHTS, ENDLESS, 1};
}

static inline struct effect grant(unsigned rights, unsigned count)
{
    return (struct effect){rights, rights, count, NO_DROP};
}

/* The lowest: no rights and no count, whatever was there. */
static inline struct effect lowest(void)
{
    return grant(0, 0);
}

static inline struct effect then(struct effect first, struct effect second)
{
    struct effect e;
    e.keep_in = (first.keep_in | second.keep_in) & second.keep_max;
    e.keep_max = (first.keep_max | second.keep_in) & second.keep_max;
    e.cap = second.cap;
    e.drop = NO_DROP;
    if (second.drop == NO_DROP)
        return e;
    e.cap = smaller(less(first.cap, second.drop), second.cap);
    if (first.drop != NO_DROP && e.cap != 0)
        e.drop = drop_of(first.drop + second.drop);
    return e;
}

static inline struct effect both(struct effect a, struct effect b)
{
    struct effect e;
    e.keep_in = a.keep_in & b.keep_in;
    e.keep_max = a.keep_max & b.keep_max;
    e.cap = smaller(a.cap, b.cap);
    e.drop = e.cap == 0 ? NO_DROP : larger_drop(a.drop, b.drop);
    return e;
}

/* A drop below the other's would leave 1 where the other leaves 0. */
static inline bool at_most(struct effect a, struct effect b)
{
    unsigned more = (a.keep_in & ~b.keep_in) | (a.keep_max & ~b.keep_max);
    bool fits = a.cap <= b.cap && larger_drop(a.drop, b.drop) == a.drop;
    return more == 0 && (a.cap == 0 || fits);
}

/* The effect taken k times, k at least 1. The rights are settled after the
 * first time, each further time takes the drop from the cap; so it falls with
 * k, and the last of 1 to k times is at most all of them. */
static inline struct effect taken(struct effect e, unsigned k)
{
    if (e.drop == NO_DROP)
        return e;
    e.cap = less(e.cap, (k - 1) * e.drop);
    e.drop = e.cap == 0 ? NO_DROP : drop_of(k * e.drop);
    return e;
}

/* Whether a stock has every right drawn and a count of at least 1. */
static inline bool covers(struct effect stock, unsigned rights)
{
    return (rights & ~stock.keep_max) == 0 && stock.cap != 0;
}

#endif
