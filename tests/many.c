/* Checks many sheets in one call, through the C face, and each of them alone.
 * Every argument is a pair of graph and sheet, as the corpus of check has
 * them: the graph's length in two bytes, the graph, the sheet. For each graph, 1
 * to 20 of the sheets that the pairs have for it, and lengths that are wrong.
 * Ends with status 1 where the answer, the row or a number beside the row is not
 * what include/snellair.h says. */
#include "snellair.h"

#include <stdio.h>
#include <stdlib.h>
#include <string.h>

enum { MOST = (int)SNELLAIR_MOST_SHEETS, MARGIN = 16, PAIRS = 1000 };
static const uint32_t guard = 0xA5A5A5A5u;

struct pair {
    const char *name;
    uint8_t *graph, *sheet;
    size_t graph_length, sheet_length;
};

static struct pair pairs[PAIRS];
static size_t pair_count, asked, miscounted, refused;

/* The sheets that are lent, end to end, with one more than there may be. */
static uint8_t sheets[(SNELLAIR_MOST_SHEETS + 1) * SNELLAIR_LONGEST_SHEET + 1];
/* The row, with a margin on both sides that nobody may touch. */
static uint32_t row[MARGIN + 2 * MOST + 2 + MARGIN];

static void expect(int holds, const struct pair *p, const char *what,
                   size_t number)
{
    if (holds)
        return;
    printf("many, %s: %s (%zu)\n", p->name, what, number);
    exit(1);
}

static size_t word(const uint8_t *bytes)
{
    return bytes[0] + 256u * bytes[1];
}

static void read_pair(const char *path, struct pair *p)
{
    static uint8_t bytes[65536 + SNELLAIR_LONGEST_SHEET + 2];
    FILE *file = fopen(path, "rb");
    p->name = path;
    expect(file != NULL, p, "cannot be read", 0);
    size_t length = fread(bytes, 1, sizeof bytes, file);
    fclose(file);
    expect(length >= 2 && word(bytes) <= length - 2, p, "is no pair", length);
    p->graph_length = word(bytes);
    p->sheet_length = length - 2 - p->graph_length;
    uint8_t *copy = malloc(length);
    expect(copy != NULL, p, "no memory", length);
    memcpy(copy, bytes, length);
    p->graph = copy + 2;
    p->sheet = p->graph + p->graph_length;
}

static int same_graph(const struct pair *p, const struct pair *q)
{
    return p->graph_length == q->graph_length &&
           memcmp(p->graph, q->graph, p->graph_length) == 0;
}

static uint64_t check_many(const struct pair *p, size_t bytes, size_t numbers)
{
    for (size_t i = 0; i < sizeof row / sizeof *row; i++)
        row[i] = guard;
    return snellair_check_many(p->graph, p->graph_length,
                               bytes == 0 ? NULL : sheets, bytes,
                               numbers == 0 ? NULL : row + MARGIN, numbers);
}

/* No number of the row but the first so many is touched. */
static int untouched_behind(size_t numbers)
{
    size_t i = 0;
    while (i < sizeof row / sizeof *row &&
           (row[i] == guard || (i >= MARGIN && i < MARGIN + numbers)))
        i++;
    return i == sizeof row / sizeof *row;
}

/* The row has what is answered for each sheet alone. */
static void expect_row(const struct pair *p, size_t size, size_t count)
{
    expect(check_many(p, count * size, 2 * count) == SNELLAIR_PASS, p,
           "not answered 0", count);
    expect(untouched_behind(2 * count), p, "beside the row", count);
    for (size_t i = 0; i < count; i++) {
        uint64_t alone =
            snellair_check(p->graph, p->graph_length, sheets + i * size, size);
        expect(row[MARGIN + 2 * i] == SNELLAIR_NUMBER(alone) &&
                   row[MARGIN + 2 * i + 1] == SNELLAIR_PLACE(alone),
               p, "a sheet is answered otherwise", i);
        asked++;
    }
}

/* Any other lengths are 24, and the row is as it was. */
static void expect_miscounted(const struct pair *p, size_t bytes,
                              size_t numbers)
{
    expect(check_many(p, bytes, numbers) == SNELLAIR_BAD_ROW, p,
           "not answered 24", bytes);
    expect(untouched_behind(0), p, "the row after 24", numbers);
    miscounted++;
}

static void try_lengths(const struct pair *p, size_t size)
{
    static const size_t counts[] = {1, 2, 19, 20};
    expect_miscounted(p, 0, 0);
    expect_miscounted(p, 0, 2);
    expect_miscounted(p, 21 * size, 42);
    expect_miscounted(p, 21 * size, 40);
    expect_miscounted(p, 20 * size, 42);
    for (size_t i = 0; i < sizeof counts / sizeof *counts; i++) {
        size_t k = counts[i];
        expect_miscounted(p, k * size + 1, 2 * k);
        expect_miscounted(p, k * size - 1, 2 * k);
        expect_miscounted(p, k * size, 2 * k + 1);
        expect_miscounted(p, k * size, 2 * k - 1);
        expect_miscounted(p, k * size, 2 * k - 2);
        expect_miscounted(p, k * size, k);
        expect_miscounted(p, k * size, 0);
    }
}

/* A graph that is refused gets its refusal, whatever else is lent. */
static void try_refused(const struct pair *p, uint64_t answer)
{
    static const size_t lengths[][2] = {
        {0, 0}, {0, 2}, {100, 2}, {2000, 40}, {21 * SNELLAIR_LONGEST_SHEET, 42},
        {20 * SNELLAIR_LONGEST_SHEET, 40}};
    for (size_t i = 0; i < sizeof lengths / sizeof *lengths; i++) {
        expect(check_many(p, lengths[i][0], lengths[i][1]) == answer, p,
               "not the refusal of the graph", i);
        expect(untouched_behind(0), p, "the row after a refusal", i);
        refused++;
    }
}

/* The sheets that the pairs have for a graph, as far as their length is right,
 * and a blank one; 1 to 20 of them, starting at one and another. */
static void try_graph(const struct pair *p)
{
    static const uint8_t blank[SNELLAIR_LONGEST_SHEET];
    const uint8_t *own[PAIRS + 1] = {blank};
    size_t found = 1;
    uint64_t answer = snellair_check(p->graph, p->graph_length, NULL, 0);
    if (SNELLAIR_NUMBER(answer) != SNELLAIR_BAD_SHEET) {
        try_refused(p, answer);
        return;
    }
    const uint8_t *trailer = p->graph + p->graph_length - 14;
    size_t size = SNELLAIR_SHEET_BYTES(word(trailer), word(trailer + 2),
                                       word(trailer + 10));
    for (const struct pair *q = p; q < pairs + pair_count; q++)
        if (same_graph(p, q) && q->sheet_length == size)
            own[found++] = q->sheet;
    for (size_t count = 1; count <= SNELLAIR_MOST_SHEETS; count++) {
        for (size_t i = 0; i < count; i++)
            memcpy(sheets + i * size, own[(count + i) % found], size);
        expect_row(p, size, count);
    }
    try_lengths(p, size);
}

static int is_first(const struct pair *p)
{
    const struct pair *q = pairs;
    while (q < p && !same_graph(p, q))
        q++;
    return q == p;
}

int main(int argc, char **argv)
{
    size_t graphs = 0;
    if (argc - 1 > PAIRS) {
        printf("many: more than %d pairs\n", PAIRS);
        return 1;
    }
    for (int i = 1; i < argc; i++)
        read_pair(argv[i], &pairs[pair_count++]);
    for (size_t i = 0; i < pair_count; i++)
        if (is_first(&pairs[i])) {
            try_graph(&pairs[i]);
            graphs++;
        }
    printf("%zu graphs, %zu sheets, %zu wrong lengths, %zu refusals\n", graphs,
           asked, miscounted, refused);
    return 0;
}
