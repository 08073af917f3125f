/* The sheet: its blocks, where they stand, and the effects of all types.
 *
 * Blocks are numbered as they stand: for each method its stock and nine exits,
 * then the nodes. */
#ifndef PEER_SHEET_H
#define PEER_SHEET_H

#include "effect.h"
#include "format.h"

#include <string.h>

enum {
    EXITS = 1 + EXCEPTIONS,
    METHOD_BLOCKS = 1 + EXITS,
    MOST_BLOCKS = MOST_METHODS * METHOD_BLOCKS + MOST_NODES,
    RULES = 10,
    MARK_MISSING = MOST_TYPES /* answer 12's type where no type fails */
};

/* Of a sheet for a file with these counts. */
struct shape {
    unsigned methods, nodes, types;
};

/* Of the sheet for a file that is not refused. */
static inline struct shape shape_of(const uint8_t *graph, size_t length)
{
    const uint8_t *trailer = graph + length - TRAILER_BYTES;
    return (struct shape){read_word(trailer + 2 * METHODS),
                          read_word(trailer + 2 * NODES),
                          read_word(trailer + 2 * OPENING)};
}

struct effects {
    struct effect of[MOST_TYPES];
};

static inline unsigned stock_block(unsigned method)
{
    return METHOD_BLOCKS * method;
}

/* Exit 0 is the return, exit 1 + e exception e. */
static inline unsigned exit_block(unsigned method, unsigned exit)
{
    return METHOD_BLOCKS * method + 1 + exit;
}

static inline unsigned node_block(struct shape s, unsigned node)
{
    return METHOD_BLOCKS * s.methods + node;
}

static inline unsigned block_count(struct shape s)
{
    return node_block(s, s.nodes);
}

static inline bool is_stock(struct shape s, unsigned block)
{
    return block < node_block(s, 0) && block % METHOD_BLOCKS == 0;
}

/* Without the mark. */
static inline unsigned block_words(struct shape s, unsigned block)
{
    return (is_stock(s, block) ? 2 : 4) * s.types;
}

/* The block's first word. The stocks before it are shorter than the exits. */
static inline unsigned block_at(struct shape s, unsigned block)
{
    unsigned stocks = s.methods;
    if (block < node_block(s, 0))
        stocks = (block + METHOD_BLOCKS - 1) / METHOD_BLOCKS;
    return block * (1 + 4 * s.types) - stocks * 2 * s.types;
}

static inline size_t sheet_bytes(struct shape s)
{
    return 2 * (size_t)block_at(s, block_count(s));
}

/* Answers whether the block is marked, and reads it only if it is. */
static inline bool read_block(struct shape s, const uint8_t *sheet,
                              unsigned block, struct effects *e)
{
    const uint8_t *at = sheet + 2 * (size_t)block_at(s, block);
    bool stock = is_stock(s, block);
    if (read_word(at) == 0)
        return false;
    at += 2;
    for (unsigned t = 0; stock && t < s.types; t++, at += 4)
        e->of[t] = grant(read_word(at), read_word(at + 2));
    for (unsigned t = 0; !stock && t < s.types; t++, at += 8)
        e->of[t] = (struct effect){read_word(at), read_word(at + 2),
                                   read_word(at + 4), read_word(at + 6)};
    return true;
}

static inline void write_block(struct shape s, uint8_t *sheet, unsigned block,
                               const struct effects *e)
{
    uint8_t *at = sheet + 2 * (size_t)block_at(s, block);
    bool stock = is_stock(s, block);
    write_word(at, 1);
    at += 2;
    for (unsigned t = 0; stock && t < s.types; t++, at += 4) {
        write_word(at, e->of[t].keep_max);
        write_word(at + 2, e->of[t].cap);
    }
    for (unsigned t = 0; !stock && t < s.types; t++, at += 8) {
        write_word(at, e->of[t].keep_in);
        write_word(at + 2, e->of[t].keep_max);
        write_word(at + 4, e->of[t].cap);
        write_word(at + 6, e->of[t].drop);
    }
}

/* Takes the mark, and with it the words. */
static inline void blank_block(struct shape s, uint8_t *sheet, unsigned block)
{
    memset(sheet + 2 * (size_t)block_at(s, block), 0,
           2 * (1 + (size_t)block_words(s, block)));
}

#endif
