/* Lends the C face memory with nothing around it. Each graph file named as an
 * argument is judged by both profiles and worked out, and what comes out is
 * checked, alone and as the only one of many, at the start and at the end of
 * pages between two that can't be touched; what is only read can't be written. A
 * byte read or written beside those lent, or through a pointer that comes with
 * length 0, ends the program by a signal. */
#include "guarded.h"

/* The numbers that refuse a graph, whatever the sheet: 1 to 9, 15 and 17. */
static int refuses_graph(unsigned number)
{
    return (number >= SNELLAIR_TOO_SHORT && number <= SNELLAIR_BAD_OPENING) ||
           number == SNELLAIR_BAD_PARENT || number == SNELLAIR_NO_CALL_ROW;
}

/* What a profile answers, and what work out answers with no sheet. */
static void expect_profiled(uint64_t answer, uint64_t refused, const char *name)
{
    if (SNELLAIR_NUMBER(refused) == SNELLAIR_BAD_SHEET)
        expect(answer == SNELLAIR_PASS ||
                   SNELLAIR_NUMBER(answer) == SNELLAIR_UNFIT,
               name, "a profile that neither fits nor is broken");
    else
        expect(answer == refused, name, "a profile does not refuse the graph");
}

/* The sheet as the only one of many, with a row of just two numbers, and with
 * one of another length, which can't be touched. */
static void try_many(const char *name, const uint8_t *graph, size_t length,
                     const uint8_t *sheet, size_t sheet_size, uint64_t verdict,
                     struct pages rows, int at_end)
{
    uint32_t *row = (uint32_t *)(void *)place(rows, 2 * sizeof *row, at_end);
    permit(rows, PROT_READ | PROT_WRITE);
    expect(snellair_check_many(graph, length, sheet, sheet_size, row, 2) ==
                   SNELLAIR_PASS &&
               row[0] == SNELLAIR_NUMBER(verdict) &&
               row[1] == SNELLAIR_PLACE(verdict),
           name, "the row does not say what check answers");
    permit(rows, PROT_NONE);
    expect(snellair_check_many(graph, length, sheet, sheet_size, row, 1) ==
                   SNELLAIR_BAD_ROW &&
               snellair_check_many(graph, length, sheet, sheet_size - 1, row,
                                   2) == SNELLAIR_BAD_ROW,
           name, "a row or a sheet of another length is not answered 24");
}

/* A graph where it can only be read: first with no sheet, then with its own. */
static void try_graph(const char *name, const uint8_t *graph, size_t length,
                      struct pages sheets, struct pages rows, int at_end)
{
    uint64_t refused = snellair_work_out(graph, length, NULL, 0);
    expect(snellair_check(graph, length, NULL, 0) == refused, name,
           "no sheet, and the two answer otherwise");
    expect_profiled(snellair_one_shot(graph, length), refused, name);
    expect_profiled(snellair_session(graph, length), refused, name);
    expect(snellair_check_many(graph, length, NULL, 0, NULL, 0) ==
               (SNELLAIR_NUMBER(refused) == SNELLAIR_BAD_SHEET
                    ? (uint64_t)SNELLAIR_BAD_ROW
                    : refused),
           name, "no sheet of many, and it is answered otherwise");
    if (SNELLAIR_NUMBER(refused) != SNELLAIR_BAD_SHEET) {
        expect(refuses_graph(SNELLAIR_NUMBER(refused)), name,
               "a verdict with no sheet");
        return;
    }
    size_t sheet_size = sheet_length(graph, length);
    permit(sheets, PROT_READ | PROT_WRITE);
    uint8_t *sheet = place(sheets, sheet_size, at_end);
    uint64_t verdict = snellair_work_out(graph, length, sheet, sheet_size);
    permit(sheets, PROT_READ);
    expect(snellair_check(graph, length, sheet, sheet_size) == verdict, name,
           "check does not answer as work out did");
    try_many(name, graph, length, sheet, sheet_size, verdict, rows, at_end);
}

int main(int argc, char **argv)
{
    struct pages graphs = make_pages(SNELLAIR_LONGEST_GRAPH);
    struct pages sheets = make_pages(SNELLAIR_LONGEST_SHEET);
    struct pages rows = make_pages(2 * sizeof(uint32_t));
    for (int i = 1; i < argc; i++)
        for (int at_end = 0; at_end < 2; at_end++) {
            size_t length;
            uint8_t *graph = read_graph(argv[i], graphs, at_end, &length);
            try_graph(argv[i], graph, length, sheets, rows, at_end);
        }

    /* Nothing at all: NULL, and a pointer to what can't be touched. */
    permit(graphs, PROT_NONE);
    expect(snellair_work_out(NULL, 0, NULL, 0) == SNELLAIR_TOO_SHORT &&
               snellair_check(NULL, 0, NULL, 0) == SNELLAIR_TOO_SHORT &&
               snellair_check(graphs.start, 0, graphs.start, 0) ==
                   SNELLAIR_TOO_SHORT &&
               snellair_check_many(NULL, 0, NULL, 0, NULL, 0) ==
                   SNELLAIR_TOO_SHORT &&
               snellair_one_shot(NULL, 0) == SNELLAIR_TOO_SHORT &&
               snellair_session(NULL, 0) == SNELLAIR_TOO_SHORT,
           "nothing", "not answered 1");
    printf("lent: %d graphs, and no byte beside them touched\n", argc - 1);
    return 0;
}
