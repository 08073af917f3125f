/* Snellair: whether an add-on's permission graph ever runs out of permits.
 *
 * Operations over bytes that the caller lends: whatever the bytes are, and
 * however many, there is an answer. None allocates or keeps anything. Link
 * with -lsnellair, as pkg-config says after tools/install; docs/FORMAT.md has
 * the layout of graph, sheet and listing.
 *
 * All that is asked of the caller: behind a pointer there are as many bytes,
 * of the row as many numbers, as the length after it says, and what is written,
 * the sheet, the area, the row and the output, overlaps nothing else that is
 * lent. With length 0 a pointer is not used, and may be NULL. */
#ifndef SNELLAIR_H
#define SNELLAIR_H

#include <stddef.h>
#include <stdint.h>

#ifdef __cplusplus
extern "C" {
#endif

/* Works out the permission sheet of a graph. The sheet's length is exactly
 * SNELLAIR_SHEET_BYTES of the graph's counts; any other is answered
 * SNELLAIR_BAD_SHEET, if the graph itself is not refused. After the verdicts
 * SNELLAIR_PASS and SNELLAIR_OVERDRAWN all of the sheet is written; after any
 * refusal it is byte for byte as it was. */
uint64_t snellair_work_out(const uint8_t *graph, size_t graph_len,
                           uint8_t *sheet, size_t sheet_len);

/* Works out the sheet of a graph as snellair_work_out does, with the same
 * answer and the same bytes, but looks again only at what depends on a change:
 * for graphs on which sweeps over all tables take long. It keeps note of that
 * in an area of exactly SNELLAIR_AREA_BYTES bytes; any other length is answered
 * SNELLAIR_BAD_AREA, if neither the graph nor the sheet's length is refused.
 * What the area held before does not matter. After a verdict it holds zeros;
 * after any refusal sheet and area are byte for byte as they were. */
uint64_t snellair_work_out_queued(const uint8_t *graph, size_t graph_len,
                                  uint8_t *sheet, size_t sheet_len,
                                  uint8_t *area, size_t area_len);

/* Checks a sheet, whoever made it, against a graph. Both are only read, and
 * the sheet's length is as above. A graph for which this answers SNELLAIR_PASS
 * has no run that overdraws. */
uint64_t snellair_check(const uint8_t *graph, size_t graph_len,
                        const uint8_t *sheet, size_t sheet_len);

/* Checks many sheets against one graph, which is judged once: 1 to
 * SNELLAIR_MOST_SHEETS of them end to end, each of the length above. row_len
 * counts numbers, two for each sheet. Graph and sheets are only read.
 * SNELLAIR_PASS says that all of the row is written: row[2 * i] is the number
 * and row[2 * i + 1] the place that snellair_check answers for sheet i alone:
 * SNELLAIR_PASS, SNELLAIR_BAD_BLOCK, SNELLAIR_BROKEN_RULE or
 * SNELLAIR_OVERDRAWN. (Type and line have no room there.) Where row[2 * i] is
 * SNELLAIR_PASS, no run of that graph overdraws. A graph that is refused gets
 * its refusal; else any other lengths are answered SNELLAIR_BAD_ROW. After a
 * refusal the row is as it was. */
uint64_t snellair_check_many(const uint8_t *graph, size_t graph_len,
                             const uint8_t *sheets, size_t sheets_len,
                             uint32_t *row, size_t row_len);

/* Works out the sheet of a graph as snellair_work_out does, with the same
 * answer, and writes the listing of what it found: the text that the program
 * prints, one line for a refusal. (Of a file above SNELLAIR_LONGEST_GRAPH bytes
 * the program always prints `refused 3 0`; the call gives its own answer.) What
 * the sheet held before does not matter.
 * The output is the text, and 0 behind it to its end, at least one: so it is a
 * C string. An output of fewer than SNELLAIR_LISTING_ROOM bytes is answered
 * SNELLAIR_OUTPUT_SHORT before all else, and neither sheet nor output is
 * touched. */
uint64_t snellair_listing(const uint8_t *graph, size_t graph_len,
                          uint8_t *sheet, size_t sheet_len,
                          uint8_t *output, size_t output_len);

/* Whether a graph, which is only read, fits a profile: how its add-on asks for
 * permits. SNELLAIR_PASS says that it does, SNELLAIR_UNFIT names the lowest
 * node that breaks it; a graph that is refused gets its refusal first.
 *
 * One-shot, for add-ons that ask right before each use: every flow row into a
 * draw leaves a grant of the same type whose rights contain the draw's and
 * whose count is exactly 1, and no draw is an entry node or the target of a
 * catch row. A graph that fits has no run that overdraws, so with a sheet of
 * the right length snellair_work_out passes it. */
uint64_t snellair_one_shot(const uint8_t *graph, size_t graph_len);

/* Session, for add-ons that ask at start-up: every grant stands in method 0
 * with count 255, and no call row names method 0. That a graph fits says
 * nothing of whether its permits suffice. */
uint64_t snellair_session(const uint8_t *graph, size_t graph_len);

#define SNELLAIR_VERSION "1.0.0"

/* The parts of an answer: number, type, place, and the source line of the
 * node where the place is one. */
#define SNELLAIR_NUMBER(answer) ((unsigned)((answer) & 0xFFu))
#define SNELLAIR_TYPE(answer) ((unsigned)((answer) >> 8 & 0xFFu))
#define SNELLAIR_PLACE(answer) ((unsigned long)((answer) >> 16 & 0xFFFFFFu))
#define SNELLAIR_LINE(answer) ((unsigned)((answer) >> 40 & 0xFFFFu))

/* The numbers, and what the place tells. 0 and 13 are verdicts, the others
 * refusals; 11 and 12 come from check only, alone or in the row of many sheets,
 * 14 from the profiles only, 23 from work out with a queue only, 24 from the
 * check of many sheets only, in place of 10, and 26 from the listing only. From
 * that check 0 only says that the row is written.
 * The first that applies is given: 26, then 1 to 7, 15, 8, 17, 9, then 24 or
 * 10, 23 and 11 to 14, and 0 where none does; within a table the lowest row.
 * 12 and 13 also name a type: 13 that of the draw, 12 the lowest that fails in
 * any place where that rule is broken, or SNELLAIR_MARKS_ALONE when marks are
 * all that is missing. All others have type 0. 5, 13, 14 and 17 also name the
 * source line of the node, as its row says it, 0 for none. All others have
 * line 0. */
enum snellair_number {
    SNELLAIR_PASS = 0,         /* 0 */
    SNELLAIR_TOO_SHORT = 1,    /* 0: fewer than 14 bytes */
    SNELLAIR_BAD_COUNT = 2,    /* which count of the trailer, 0 to 5 */
    SNELLAIR_BAD_LENGTH = 3,   /* 0: distance or file length */
    SNELLAIR_BAD_ENTRY = 4,    /* row of the methods */
    SNELLAIR_BAD_NODE = 5,     /* row of the nodes */
    SNELLAIR_BAD_FLOW = 6,     /* row of the flow */
    SNELLAIR_BAD_CALL = 7,     /* row of the calls */
    SNELLAIR_BAD_CATCH = 8,    /* row of the catches */
    SNELLAIR_BAD_OPENING = 9,  /* row of the opening stock */
    SNELLAIR_BAD_SHEET = 10,   /* 0: the sheet's length */
    SNELLAIR_BAD_BLOCK = 11,   /* first word of the lowest ill-formed block */
    SNELLAIR_BROKEN_RULE = 12, /* lowest sheet rule that is broken, 1 to 10 */
    SNELLAIR_OVERDRAWN = 13,   /* lowest reached node not covered */
    SNELLAIR_UNFIT = 14,       /* lowest node that breaks the profile */
    SNELLAIR_BAD_PARENT = 15,  /* lowest kind with a parent not lower or 255 */
    SNELLAIR_NO_CALL_ROW = 17, /* lowest call node that no call row names */
    SNELLAIR_BAD_AREA = 23,    /* 0: the area's length */
    SNELLAIR_BAD_ROW = 24,     /* 0: the length of the sheets or of the row */
    SNELLAIR_OUTPUT_SHORT = 26 /* 0: the output's length */
};

#define SNELLAIR_MARKS_ALONE 6u

/* The limits: most methods, nodes and types; the longest graph file and the
 * longest sheet, in bytes; the bytes of the area; most sheets in one call; room
 * for any listing and the 0 behind it. */
#define SNELLAIR_MOST_METHODS 64u
#define SNELLAIR_MOST_NODES 512u
#define SNELLAIR_MOST_TYPES 6u
#define SNELLAIR_LONGEST_GRAPH 13486u
#define SNELLAIR_LONGEST_SHEET \
    SNELLAIR_SHEET_BYTES(SNELLAIR_MOST_METHODS, SNELLAIR_MOST_NODES, \
                         SNELLAIR_MOST_TYPES)

#define SNELLAIR_AREA_BYTES 4096u
#define SNELLAIR_MOST_SHEETS 20u
#define SNELLAIR_LISTING_ROOM 46103u

/* The bytes of the sheet of a graph with so many methods, nodes and types:
 * the first, second and sixth count of its trailer. */
#define SNELLAIR_SHEET_BYTES(methods, nodes, types) \
    (2u * ((methods) * (10u + 38u * (types)) + (nodes) * (1u + 4u * (types))))

#ifdef __cplusplus
}
#endif

#endif
