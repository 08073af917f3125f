/* The numbers that document 01 fixes for the graph file, and its words. */
#ifndef PEER_FORMAT_H
#define PEER_FORMAT_H

#include <stddef.h>
#include <stdint.h>

enum kind { PLAIN, GRANT, DRAW, CALL, RETURN, THROW };

enum table { METHODS, NODES, FLOW, CALLS, CATCHES, OPENING, TABLES };

enum {
    MOST_METHODS = 64,
    MOST_NODES = 512,
    MOST_FLOW = 1024,
    MOST_CALLS = 512,
    MOST_CATCHES = 512,
    MOST_TYPES = 6,
    MOST_SHEETS = 20, /* that check many takes */
    AREA_BYTES = 4096, /* that work out with a queue is lent */
    EXCEPTIONS = 8,  /* each has a parent, one byte, just before the catches */
    NO_PARENT = 255,
    TRAILER_BYTES = 14,
    MOST_ROW_BYTES = 8,
    MOST_GRAPH_BYTES = 13486,
    MOST_SHEET_BYTES = 56064
};

static const unsigned row_bytes[TABLES] = {2, MOST_ROW_BYTES, 4, 4, 6, 4};

static inline unsigned read_word(const uint8_t *at)
{
    return (unsigned)at[0] | (unsigned)at[1] << 8;
}

static inline void write_word(uint8_t *at, unsigned word)
{
    at[0] = (uint8_t)(word & 0xFF);
    at[1] = (uint8_t)(word >> 8);
}

#endif
