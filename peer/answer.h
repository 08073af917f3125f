/* The packed answer: number + 256 * type + 65,536 * place + 2^40 * line. */
#ifndef PEER_ANSWER_H
#define PEER_ANSWER_H

#include <stdbool.h>
#include <stddef.h>
#include <stdint.h>

static inline uint64_t packed(unsigned number, unsigned place)
{
    return number + ((uint64_t)place << 16);
}

/* Answers 12 and 13 name a type, in others it is 0. */
static inline uint64_t packed_type(unsigned number, unsigned type,
                                   unsigned place)
{
    return packed(number, place) + ((uint64_t)type << 8);
}

/* An answer with a node as its place carries the node's source line. */
static inline uint64_t packed_line(uint64_t answer, unsigned line)
{
    return answer + ((uint64_t)line << 40);
}

static inline unsigned number_in(uint64_t answer)
{
    return (unsigned)(answer & 0xFF);
}

static inline unsigned type_in(uint64_t answer)
{
    return (unsigned)(answer >> 8 & 0xFF);
}

static inline unsigned place_in(uint64_t answer)
{
    return (unsigned)(answer >> 16 & 0xFFFFFF);
}

static inline unsigned line_in(uint64_t answer)
{
    return (unsigned)(answer >> 40 & 0xFFFF);
}

/* Whether a row of check many says this of a sheet: number and place, two
 * numbers for each sheet. */
static inline bool row_says(const uint32_t *row, size_t sheet, uint64_t answer)
{
    return row[2 * sheet] == number_in(answer)
        && row[2 * sheet + 1] == place_in(answer);
}

static inline bool is_verdict(uint64_t answer)
{
    return answer == 0 || number_in(answer) == 13;
}

static inline uint64_t without_line(uint64_t answer)
{
    return answer & (((uint64_t)1 << 40) - 1);
}

#endif
