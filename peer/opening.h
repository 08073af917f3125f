/* What another opening stock does to a sheet, as document 02 has it: of two
 * files that differ in nothing else, what was worked out for each. */
#ifndef PEER_OPENING_H
#define PEER_OPENING_H

#include "answer.h"
#include "generate.h"

#include <stdio.h>

/* A file's verdict and its sheet. */
struct worked {
    uint64_t answer;
    const uint8_t *sheet;
};

/* Where the words of two sheets differ, and which way a right or a count of a
 * method's stock goes from the first to the second. */
struct differences {
    bool mark, effect;
    bool fell[MOST_TYPES], rose[MOST_TYPES];
    bool rights, counts; /* in stocks of other methods than 0 */
};

/* The words of a stock are rights and count in turn, after the mark. */
static inline void note_stock_word(struct differences *x, unsigned method,
                                   unsigned word, unsigned one, unsigned other)
{
    unsigned type = (word - 1) / 2;
    bool rights = word % 2 == 1;
    x->fell[type] |= rights ? (one & ~other) != 0 : one > other;
    x->rose[type] |= rights ? (other & ~one) != 0 : one < other;
    x->rights |= method != 0 && rights;
    x->counts |= method != 0 && !rights;
}

static inline void note_block(struct differences *x, struct shape s,
                              unsigned block, const uint8_t *one,
                              const uint8_t *other)
{
    for (unsigned word = 0; word <= block_words(s, block); word++) {
        size_t at = 2 * (size_t)(block_at(s, block) + word);
        unsigned a = read_word(one + at), b = read_word(other + at);
        if (a == b)
            continue;
        if (word == 0)
            x->mark = true;
        else if (is_stock(s, block))
            note_stock_word(x, block / METHOD_BLOCKS, word, a, b);
        else
            x->effect = true;
    }
}

static inline struct differences differences_of(struct shape s,
                                                const uint8_t *one,
                                                const uint8_t *other)
{
    struct differences x = {.mark = false};
    for (unsigned block = 0; block < block_count(s); block++)
        note_block(&x, s, block, one, other);
    return x;
}

/* How often there was something to see: by change the pairs of files, and those
 * where rights or counts of called methods differ; then the pairs with an
 * overdraft that the larger stock removes, or leaves to a later node. */
struct openings {
    unsigned long pairs[OPENING_CHANGES];
    unsigned long rights[OPENING_CHANGES], counts[OPENING_CHANGES];
    unsigned long removed, later;
};

/* What a change to one type does counts where there is another. */
static inline void openings_note(struct openings *seen, struct shape s,
                                 enum opening_change change,
                                 const struct differences *x)
{
    bool tells = s.types > 1 || change == SOME_RAISED;
    seen->pairs[change]++;
    seen->rights[change] += tells && x->rights;
    seen->counts[change] += tells && x->counts;
}

static inline void openings_print(const struct openings *seen)
{
    static const char *const name[OPENING_CHANGES] = {
        "some raised", "one raised", "one lowered", "one mixed"};
    printf("pairs of opening stocks, and those where a called method's rights "
           "and counts differ:");
    for (unsigned change = 0; change < OPENING_CHANGES; change++)
        printf(" %s %lu %lu %lu,", name[change], seen->pairs[change],
               seen->rights[change], seen->counts[change]);
    printf(" overdrafts removed %lu, later %lu\n", seen->removed, seen->later);
}

/* Whether what was seen says enough. */
static inline bool openings_suffice(const struct openings *seen)
{
    unsigned long raised = 0;
    for (unsigned change = 0; change < OPENING_CHANGES; change++) {
        unsigned long due = seen->pairs[change] / 64;
        if (seen->rights[change] < due || seen->counts[change] < due)
            return false;
        raised += change == ONE_MIXED ? 0 : seen->pairs[change];
    }
    return seen->removed + seen->later >= raised / 64;
}

/* A larger opening stock may remove an overdraft, or leave one at a later
 * node. */
static inline bool verdict_rises(uint64_t low, uint64_t high,
                                 struct openings *seen)
{
    if (number_in(high) == 0) {
        seen->removed += number_in(low) == 13;
        return true;
    }
    seen->later += place_in(low) < place_in(high);
    return number_in(low) == 13 && place_in(low) <= place_in(high);
}

/* What is wrong with another opening stock's verdict and sheet, or NULL. The
 * type is of a change to one. */
static inline const char *opening_fault(struct shape s,
                                        enum opening_change change,
                                        unsigned type, struct worked one,
                                        struct worked other,
                                        struct openings *seen)
{
    struct worked low = change == ONE_LOWERED ? other : one;
    struct worked high = change == ONE_LOWERED ? one : other;
    struct differences x = differences_of(s, low.sheet, high.sheet);
    openings_note(seen, s, change, &x);
    if (x.mark || x.effect)
        return "a mark, a node or an exit differs";
    for (unsigned t = 0; t < s.types; t++) {
        if (change != ONE_MIXED && x.fell[t])
            return "more was opened with, and a stock has less";
        if (change != SOME_RAISED && t != type && (x.fell[t] || x.rose[t]))
            return "one type was changed, and another differs";
    }
    if (change != ONE_MIXED && !verdict_rises(low.answer, high.answer, seen))
        return "more was opened with, and an overdraft came or came earlier";
    return NULL;
}

#endif
