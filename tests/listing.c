/* Lists each graph file named, through the C face, and prints the texts. Ends
 * with status 1 where the answer, the sheet, the output or a byte beside them
 * is not what include/snellair.h says. */
#include "snellair.h"

#include <stdio.h>
#include <stdlib.h>
#include <string.h>

enum { MARGIN = 64, GUARD = 0xA5, ROOM = (int)SNELLAIR_LISTING_ROOM };

/* Lent memory, with a margin on both sides that nobody may touch. */
struct lent {
    size_t length;
    uint8_t bytes[MARGIN + SNELLAIR_LONGEST_SHEET + 2 + MARGIN];
};

static struct lent sheet, plain, output;
static uint8_t graph[SNELLAIR_LONGEST_GRAPH + 1];
static size_t graph_length;
static const char *name;

static void expect(int holds, const char *what, size_t number)
{
    if (holds)
        return;
    printf("%s: %s (%zu)\n", name, what, number);
    exit(1);
}

static uint8_t *start(struct lent *l)
{
    return l->bytes + MARGIN;
}

static void lend(struct lent *l, size_t length)
{
    l->length = length;
    memset(l->bytes, GUARD, sizeof l->bytes);
}

static int untouched(const uint8_t *bytes, size_t length)
{
    size_t i = 0;
    while (i < length && bytes[i] == GUARD)
        i++;
    return i == length;
}

static int margins_untouched(const struct lent *l)
{
    return untouched(l->bytes, MARGIN)
        && untouched(l->bytes + MARGIN + l->length,
                     sizeof l->bytes - MARGIN - l->length);
}

static int zeros(const uint8_t *bytes, size_t length)
{
    size_t i = 0;
    while (i < length && bytes[i] == 0)
        i++;
    return i == length;
}

static uint64_t list(size_t sheet_length, size_t output_length)
{
    lend(&sheet, sheet_length);
    lend(&output, output_length);
    uint64_t answer = snellair_listing(graph, graph_length, start(&sheet),
                                       sheet_length, start(&output),
                                       output_length);
    expect(margins_untouched(&sheet), "beside the sheet", output_length);
    expect(margins_untouched(&output), "beside the output", output_length);
    return answer;
}

/* Too short: 26, and both as they were. */
static void list_in_too_little(size_t sheet_length, size_t output_length)
{
    expect(list(sheet_length, output_length) == SNELLAIR_OUTPUT_SHORT,
           "too short", output_length);
    expect(untouched(sheet.bytes, sizeof sheet.bytes), "sheet", output_length);
    expect(untouched(output.bytes, sizeof output.bytes), "output",
           output_length);
}

/* Else work out's answer and sheet, and a text with 0 behind it to the end. */
static void list_in_enough(size_t sheet_length, size_t output_length)
{
    lend(&plain, sheet_length);
    uint64_t answer = snellair_work_out(graph, graph_length, start(&plain),
                                        sheet_length);
    expect(list(sheet_length, output_length) == answer, "answer",
           output_length);
    expect(memcmp(plain.bytes, sheet.bytes, sizeof plain.bytes) == 0, "sheet",
           output_length);
    size_t length = strlen((const char *)start(&output));
    expect(length < output_length, "no 0 behind the text", output_length);
    expect(zeros(start(&output) + length, output_length - length),
           "something behind the text", output_length);
    expect(length > 0 && start(&output)[length - 1] == '\n', "last line",
           output_length);
}

static size_t word(const uint8_t *bytes)
{
    return bytes[0] + 256u * bytes[1];
}

static size_t sheet_length_of_graph(void)
{
    if (graph_length < 14)
        return 0;
    const uint8_t *trailer = graph + graph_length - 14;
    size_t length = SNELLAIR_SHEET_BYTES(word(trailer), word(trailer + 2),
                                         word(trailer + 10));
    return length <= SNELLAIR_LONGEST_SHEET ? length : 0;
}

static void test(size_t sheet_length)
{
    static const size_t too_little[] = {0, 1, 14, 1000, ROOM - 2, ROOM - 1};
    static const size_t enough[] = {ROOM + 1, ROOM + 1000, ROOM};
    for (size_t i = 0; i < sizeof too_little / sizeof *too_little; i++)
        list_in_too_little(sheet_length, too_little[i]);
    for (size_t i = 0; i < sizeof enough / sizeof *enough; i++)
        list_in_enough(sheet_length, enough[i]);
}

static void read_graph(void)
{
    FILE *file = fopen(name, "rb");
    expect(file != NULL, "cannot be read", 0);
    graph_length = fread(graph, 1, sizeof graph, file);
    fclose(file);
}

int main(int argc, char **argv)
{
    for (int i = 1; i < argc; i++) {
        name = argv[i];
        read_graph();
        size_t length = sheet_length_of_graph();
        /* a sheet of another length is a refusal like any other */
        test(length + 1);
        test(length);
        printf("%s\n%s", name, (const char *)start(&output));
    }
    return 0;
}
