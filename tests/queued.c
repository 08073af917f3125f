/* Works out with a queue, through the C face, and without. Each graph file
 * named as an argument is worked out with several old contents of sheet and
 * area, and tried with areas and sheets of other lengths. All that is lent
 * stands at the start and then at the end of pages between two that can't be
 * touched: a byte read or written beside it, or through a pointer that comes
 * with length 0, ends the program by a signal. Ends with status 1 where the
 * answer, the sheet or the area is not what include/snellair.h says. */
#include "guarded.h"

enum { AREA = (int)SNELLAIR_AREA_BYTES };

/* Of lent memory: the same byte all over, or mixed. */
enum content { ZEROS, ONES, HIGHEST, MIXED, CONTENTS };

static const size_t wrong_areas[] = {0, 1, AREA / 2, AREA - 1, AREA + 1,
                                     2 * AREA};
enum { WRONG_AREAS = sizeof wrong_areas / sizeof *wrong_areas };

static struct pages graphs, sheets, areas;
static size_t worked, wrong_lengths, refusals;

/* A graph file, and where its bytes and what is lent with it stand. */
struct subject {
    const char *name;
    const uint8_t *graph;
    size_t length;
    int at_end;
};

static uint8_t byte_of(enum content content, size_t i)
{
    static const uint8_t same[MIXED] = {0, 1, 0xFF};
    return content == MIXED ? (uint8_t)(1 + i % 251) : same[content];
}

static int holds(const uint8_t *bytes, size_t length, enum content content)
{
    size_t i = 0;
    while (i < length && bytes[i] == byte_of(content, i))
        i++;
    return i == length;
}

/* Of length 0 it is NULL, or what can't be touched. */
static uint8_t *lend(struct pages pages, size_t length, int at_end,
                     enum content content)
{
    uint8_t *bytes = place(pages, length, at_end);
    for (size_t i = 0; i < length; i++)
        bytes[i] = byte_of(content, i);
    return length > 0 || at_end ? bytes : NULL;
}

static uint64_t work_out_queued(const struct subject *s, size_t sheet_size,
                                size_t area_size, enum content old)
{
    return snellair_work_out_queued(
        s->graph, s->length, lend(sheets, sheet_size, s->at_end, old),
        sheet_size, lend(areas, area_size, s->at_end, old), area_size);
}

/* Sheet and area are as they were. */
static void expect_refused(const struct subject *s, size_t sheet_size,
                           size_t area_size, uint64_t refusal)
{
    expect(work_out_queued(s, sheet_size, area_size, MIXED) == refusal, s->name,
           "not the refusal that is due");
    expect(holds(place(sheets, sheet_size, s->at_end), sheet_size, MIXED),
           s->name, "the sheet after a refusal");
    expect(holds(place(areas, area_size, s->at_end), area_size, MIXED),
           s->name, "the area after a refusal");
}

/* With every length of the area. */
static void expect_refused_with_any_area(const struct subject *s,
                                         size_t sheet_size, uint64_t refusal)
{
    expect_refused(s, sheet_size, AREA, refusal);
    for (size_t i = 0; i < WRONG_AREAS; i++)
        expect_refused(s, sheet_size, wrong_areas[i], refusal);
}

/* The answer and the sheet are work out's, whatever the area held. */
static void expect_worked(const struct subject *s, size_t size)
{
    static uint8_t plain[SNELLAIR_LONGEST_SHEET];
    uint64_t verdict = snellair_work_out(s->graph, s->length, plain, size);
    for (enum content old = 0; old < CONTENTS; old++) {
        expect(work_out_queued(s, size, AREA, old) == verdict, s->name,
               "work out answers otherwise");
        expect(memcmp(place(sheets, size, s->at_end), plain, size) == 0,
               s->name, "work out writes another sheet");
        expect(holds(place(areas, AREA, s->at_end), AREA, ZEROS), s->name,
               "the area after a verdict");
    }
    worked += CONTENTS;
}

static void try_lengths(const struct subject *s, size_t size)
{
    const size_t wrong_sheets[] = {0, 1, size / 2, size - 1, size + 1};
    for (size_t i = 0; i < WRONG_AREAS; i++)
        expect_refused(s, size, wrong_areas[i], SNELLAIR_BAD_AREA);
    for (size_t i = 0; i < sizeof wrong_sheets / sizeof *wrong_sheets; i++)
        expect_refused_with_any_area(s, wrong_sheets[i], SNELLAIR_BAD_SHEET);
    wrong_lengths++;
}

/* A graph that is refused gets its refusal, whatever else is lent. */
static void try_graph(const struct subject *s)
{
    static const size_t any_sheet[] = {0, 1, 1000};
    uint64_t answer = snellair_work_out(s->graph, s->length, NULL, 0);
    if (answer == SNELLAIR_BAD_SHEET) {
        size_t size = sheet_length(s->graph, s->length);
        expect_worked(s, size);
        try_lengths(s, size);
        return;
    }
    for (size_t i = 0; i < sizeof any_sheet / sizeof *any_sheet; i++)
        expect_refused_with_any_area(s, any_sheet[i], answer);
    refusals++;
}

int main(int argc, char **argv)
{
    graphs = make_pages(SNELLAIR_LONGEST_GRAPH);
    sheets = make_pages(SNELLAIR_LONGEST_SHEET + 1);
    areas = make_pages(2 * AREA);
    for (int i = 1; i < argc; i++)
        for (int at_end = 0; at_end < 2; at_end++) {
            struct subject s = {.name = argv[i], .at_end = at_end};
            s.graph = read_graph(argv[i], graphs, at_end, &s.length);
            try_graph(&s);
        }

    /* No graph: NULL, and a pointer to what can't be touched. */
    permit(graphs, PROT_NONE);
    const struct subject none = {"nothing", NULL, 0, 0};
    const struct subject untouchable = {"nothing", graphs.start, 0, 1};
    expect_refused_with_any_area(&none, 0, SNELLAIR_TOO_SHORT);
    expect_refused_with_any_area(&untouchable, 0, SNELLAIR_TOO_SHORT);
    printf("%zu worked out, %zu with wrong lengths, %zu refused\n", worked,
           wrong_lengths, refusals);
    return 0;
}
