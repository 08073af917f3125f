/* Graph files and sheets from a seed, the same on every machine. */
#ifndef PEER_GENERATE_H
#define PEER_GENERATE_H

#include "draft.h"

struct random {
    uint64_t state;
};

/* The stream of one case, so that a case can be made again without those
 * before it. */
struct random random_of(uint64_t seed, uint64_t number);

unsigned random_below(struct random *r, unsigned bound);

void random_fill(struct random *r, uint8_t *bytes, size_t length);

/* The most of each; repeats is at least 3, count is of finite grants. */
struct sizes {
    unsigned methods, nodes, types, repeats, count;
};

/* Any graph within these sizes. It is well formed but for calls without a call
 * row, which one graph in sixteen has. */
void generate_graph(struct random *r, const struct sizes *most,
                    struct draft *d);

/* Likewise with 64 methods, 512 nodes and 6 types, in half of the cases with
 * full tables of flow, calls and catches. */
void generate_limit_graph(struct random *r, struct draft *d);

/* Each leads rows elsewhere and makes other nodes of some, so that the graph
 * fits the profile. A method is added where none but method 0 could be
 * called. */
void generate_one_shot(struct random *r, struct draft *d);
void generate_session(struct random *r, struct draft *d);

/* Gives every node of a file any line. The file is not answered 1 to 3. */
void generate_lines(struct random *r, uint8_t *graph, size_t length);

/* What becomes of the opening stock. */
enum opening_change {
    SOME_RAISED, /* all types, or some */
    ONE_RAISED,
    ONE_LOWERED,
    ONE_MIXED,   /* rights up and count down, or the other way round */
    OPENING_CHANGES
};

/* Changes the opening stock in a file with a verdict, in rights, counts or
 * both; what has no room stays. Answers the type, of a change to one. */
unsigned generate_opening(struct random *r, enum opening_change change,
                          uint8_t *graph, size_t length);

/* Changes one field that a profile looks at; the graph stays well formed. */
void generate_profile_change(struct random *r, struct draft *d);

/* How many bytes a damaged file or a wrong sheet may have too many. */
enum { MOST_ADDED = 16 };

/* Damages the file written from a draft and answers its new length. It may
 * stay well formed. */
size_t generate_damage(struct random *r, const struct draft *d, uint8_t *graph,
                       size_t length);

enum sheet_kind {
    AS_GIVEN,
    WORD_ALTERED,
    BLOCKS_ALTERED,   /* into well-formed ones, lower or higher */
    TARGETS_RAISED,   /* blocks that one rule leads to, each in several types */
    MARKS_TAKEN,      /* from such blocks */
    RAISED_AND_TAKEN, /* some of them raised, some without their mark */
    LOWEST,           /* everything marked with nothing left; obeys all rules */
    BLANK,
    ANY_BYTES,
    WRONG_LENGTH,
    SHEET_KINDS
};

/* Any other length than this one, shorter or up to MOST_ADDED longer. */
size_t generate_wrong_length(struct random *r, size_t length);

/* Makes a sheet of this kind from the well-formed one given for a graph, and
 * answers its length, at most MOST_SHEET_BYTES + MOST_ADDED. */
size_t generate_sheet(struct random *r, enum sheet_kind kind,
                      const struct draft *d, const uint8_t *given,
                      uint8_t *sheet);

/* The most that is generated for the area of work out with a queue. */
enum { MOST_AREA = 2 * AREA_BYTES };

/* Any other length than AREA_BYTES. */
size_t generate_wrong_area(struct random *r);

/* What it held before: any bytes, or the same one all over. */
void generate_area(struct random *r, uint8_t *area, size_t length);

/* What check many is lent: bytes of sheets, numbers of the row. */
struct lengths {
    size_t sheets, row;
};

/* The most that is generated for it. */
enum {
    MOST_ROW = 2 * (MOST_SHEETS + 1) + 1,
    MOST_SHEETS_BYTES = (MOST_SHEETS + 1) * MOST_SHEET_BYTES
};

/* Makes so many sheets end to end, each of any kind with the right length. */
struct lengths generate_sheets(struct random *r, unsigned count,
                               const struct draft *d, const uint8_t *given,
                               uint8_t *sheets);

/* Takes lengths for so many sheets to some that do not go together, or are of
 * too many sheets or of none. */
struct lengths generate_wrong_lengths(struct random *r, unsigned count,
                                      struct lengths right);

#endif
