/* A graph before it is written as a file. Rows are kept sorted and single. */
#ifndef PEER_DRAFT_H
#define PEER_DRAFT_H

#include "format.h"
#include "sheet.h"

#include <stdbool.h>

struct draft_node {
    uint8_t method, kind, number, count;
    uint16_t rights, line;
};

/* Rows of flow, calls or catches; a field that a table lacks is 0. */
struct draft_rows {
    unsigned count, most;
    uint16_t row[MOST_FLOW][3];
};

struct draft {
    unsigned methods, nodes, types;
    uint16_t entry[MOST_METHODS];
    struct draft_node node[MOST_NODES];
    struct draft_rows flow, calls, catches;
    uint8_t parent[EXCEPTIONS];
    uint16_t opening_rights[MOST_TYPES], opening_count[MOST_TYPES];
};

/* No methods, nodes, rows or parents; opening stocks of 0. */
void draft_start(struct draft *d, unsigned types);

/* Each answers the number of what it adds. A method's first node is its entry
 * unless set otherwise. */
unsigned draft_method(struct draft *d);
unsigned draft_node(struct draft *d, unsigned method, enum kind kind);
unsigned draft_grant(struct draft *d, unsigned method, unsigned type,
                     unsigned count, unsigned rights);
unsigned draft_draw(struct draft *d, unsigned method, unsigned type,
                    unsigned rights);
unsigned draft_call(struct draft *d, unsigned method, unsigned repeats);
unsigned draft_throw(struct draft *d, unsigned method, unsigned exception);

/* Each answers whether the row is new and the table had room for it. */
bool draft_flow(struct draft *d, unsigned from, unsigned to);
bool draft_callee(struct draft *d, unsigned node, unsigned method);
bool draft_catch(struct draft *d, unsigned from, unsigned exception,
                 unsigned to);

/* Gives a row another value in one field, and so another place. It is gone if
 * there is such a row already. */
void draft_alter(struct draft_rows *rows, unsigned row, unsigned field,
                 unsigned value);

/* Takes out the rows that start with this node. */
void draft_take_out(struct draft_rows *rows, unsigned from);

/* The lowest call without a call row, MOST_NODES if each has one. */
unsigned draft_lost_call(const struct draft *d);

/* The kind whose catch rows apply to an exception at this node: its own, if it
 * has some there, or that of its nearest ancestor that has; else NO_PARENT. */
unsigned draft_caught_as(const struct draft *d, unsigned node,
                         unsigned exception);

struct shape draft_shape(const struct draft *d);

/* How many rows a table has, and at which byte of the file it starts; the
 * trailer starts where a seventh table would. */
unsigned draft_row_count(const struct draft *d, enum table t);
size_t draft_table_at(const struct draft *d, enum table t);

/* Writes the file, at most MOST_GRAPH_BYTES, and answers its length. */
size_t draft_write(const struct draft *d, uint8_t *graph);

/* Document 01's file A with these in place of grant 2 and 2 repeats. */
void draft_file_a(struct draft *d, unsigned granted, unsigned repeats);

#endif
