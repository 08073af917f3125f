/* An independent peer of Snellair: written from documents 01 and 02 and the
 * readings of them that docs/DECISIONS.md keeps, with the packed answer and the
 * order of a block's words as in docs/FORMAT.md, and without a look at
 * Snellair's code.
 * Each operation gives a packed answer (answer.h). */
#ifndef PEER_H
#define PEER_H

#include <stddef.h>
#include <stdint.h>

/* Looks again only at what depends on a block that changed. */
uint64_t peer_work_out(const uint8_t *graph, size_t graph_len,
                       uint8_t *sheet, size_t sheet_len);

/* The same by sweeps over all rules, for comparing speed. */
uint64_t peer_work_out_sweeping(const uint8_t *graph, size_t graph_len,
                                uint8_t *sheet, size_t sheet_len);

/* The same with a lent area of AREA_BYTES, which holds zeros after a verdict;
 * the peer's list stands elsewhere. An area of another length is answered 23,
 * after 10. Every refusal leaves sheet and area as they were. */
uint64_t peer_work_out_queued(const uint8_t *graph, size_t graph_len,
                              uint8_t *sheet, size_t sheet_len,
                              uint8_t *area, size_t area_len);

uint64_t peer_check(const uint8_t *graph, size_t graph_len,
                    const uint8_t *sheet, size_t sheet_len);

/* Checks 1 to 20 sheets, end to end, against one graph. The row has two numbers
 * for each: the number and the place that peer_check answers for it alone. A
 * refusal of the file, or else 24 for lengths that do not go together, leaves
 * the row as it was. */
uint64_t peer_check_many(const uint8_t *graph, size_t graph_len,
                         const uint8_t *sheets, size_t sheets_len,
                         uint32_t *row, size_t row_len);

/* Document 02's profiles: 0 fits, 14 doesn't, with the lowest node that breaks
 * it. */
uint64_t peer_one_shot(const uint8_t *graph, size_t graph_len);
uint64_t peer_session(const uint8_t *graph, size_t graph_len);

#endif
