/* How often each answer came, by its number, and answer 12 by its type. */
#ifndef PEER_TALLY_H
#define PEER_TALLY_H

#include "answer.h"

#include <stdio.h>

/* A number has 8 bits in the packed answer, and so has a type. */
enum { NUMBERS = 256 };

struct tally {
    unsigned long times[NUMBERS];
    unsigned long broken_at[NUMBERS];
};

static inline void tally_note(struct tally *t, uint64_t answer)
{
    t->times[number_in(answer)]++;
    if (number_in(answer) == 12)
        t->broken_at[type_in(answer)]++;
}

static inline unsigned long tally_verdicts(const struct tally *t)
{
    return t->times[0] + t->times[13];
}

static inline unsigned long tally_all(const struct tally *t)
{
    unsigned long all = 0;
    for (unsigned number = 0; number < NUMBERS; number++)
        all += t->times[number];
    return all;
}

static inline void tally_print_times(const unsigned long times[NUMBERS])
{
    for (unsigned number = 0; number < NUMBERS; number++)
        if (times[number] != 0)
            printf(" %u:%lu", number, times[number]);
}

/* The answers that came, after the name and how many there were. */
static inline void tally_print(const char *name, const struct tally *t)
{
    printf("%s: %lu, by answer", name, tally_all(t));
    tally_print_times(t->times);
    if (t->times[12] != 0)
        printf("; 12 by type");
    tally_print_times(t->broken_at);
    printf("\n");
}

/* Of check many: the calls, the sheets of those that were not refused, and the
 * rows that do not say the same of all their sheets. */
struct many_tally {
    struct tally calls, sheets;
    unsigned long mixed;
};

static inline void many_tally_note_row(struct many_tally *t,
                                       const uint32_t *row, size_t row_len)
{
    for (size_t i = 2; i < row_len; i++)
        if (row[i] != row[i - 2]) {
            t->mixed++;
            return;
        }
}

static inline void many_tally_print(const struct many_tally *t)
{
    tally_print("check many", &t->calls);
    tally_print("its sheets", &t->sheets);
    printf("its rows that say several things: %lu\n", t->mixed);
}

/* Whether most rows would show an answer given for another sheet, and all that
 * a sheet may be answered came. */
static inline bool many_tally_suffices(const struct many_tally *t)
{
    static const unsigned numbers[4] = {0, 11, 12, 13};
    for (unsigned i = 0; i < 4; i++)
        if (t->sheets.times[numbers[i]] < tally_all(&t->sheets) / 32)
            return false;
    return 2 * t->mixed >= t->calls.times[0];
}

#endif
