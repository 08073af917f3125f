/* A small loader: takes an add-on's graph file and the sheet that came with
 * it, checks the one against the other, and says in words why it refuses.
 * With one argument it works the sheet out itself. With --one-shot or
 * --session it asks whether the graph fits that profile. */
#include "snellair.h"

#include <stdio.h>
#include <stdlib.h>
#include <string.h>

/* What a refusal says, and what its place counts; NULL where there is none. */
struct meaning {
    const char *says, *place;
};

static const struct meaning answers[] = {
    [SNELLAIR_TOO_SHORT] = {"the graph file has fewer than 14 bytes", NULL},
    [SNELLAIR_BAD_COUNT] = {"a count of the trailer is out of its limits",
                            "count"},
    [SNELLAIR_BAD_LENGTH] = {"the graph file is not as long as its trailer says",
                             NULL},
    [SNELLAIR_BAD_ENTRY] = {"a method's entry is wrong", "method"},
    [SNELLAIR_BAD_NODE] = {"a node is wrong", "node"},
    [SNELLAIR_BAD_FLOW] = {"a row of the flow is wrong", "row"},
    [SNELLAIR_BAD_CALL] = {"a row of the calls is wrong", "row"},
    [SNELLAIR_BAD_CATCH] = {"a row of the catches is wrong", "row"},
    [SNELLAIR_BAD_OPENING] = {"an opening count is above 255", "type"},
    [SNELLAIR_BAD_SHEET] = {"the sheet has the wrong length", NULL},
    [SNELLAIR_BAD_BLOCK] = {"a block of the sheet is ill formed", "word"},
    [SNELLAIR_BROKEN_RULE] = {"the sheet breaks a rule", "rule"},
    [SNELLAIR_OVERDRAWN] = {"a draw can lack its permit", "node"},
    [SNELLAIR_UNFIT] = {"the add-on asks in another way", "node"},
    [SNELLAIR_BAD_PARENT] = {"a parent is neither lower nor 255", "kind"},
    [SNELLAIR_NO_CALL_ROW] = {"a call has no row in the calls", "node"},
    [SNELLAIR_BAD_AREA] = {"the area has the wrong length", NULL},
    [SNELLAIR_BAD_ROW] = {"the sheets or the row have the wrong length", NULL},
};

static const char suffices[] = "no run of this add-on lacks a permit";

/* Room for one byte too many, so that a longer file is seen to be longer. */
static uint8_t graph[SNELLAIR_LONGEST_GRAPH + 1];
static uint8_t sheet[SNELLAIR_LONGEST_SHEET + 1];
static uint8_t area[SNELLAIR_AREA_BYTES];

/* Reads at most `room` bytes; ends the program where a file can't be read. */
static size_t read_file(const char *path, uint8_t *bytes, size_t room)
{
    FILE *file = fopen(path, "rb");
    size_t length = file == NULL ? 0 : fread(bytes, 1, room, file);
    if (file == NULL || ferror(file)) {
        perror(path);
        exit(66);
    }
    fclose(file);
    return length;
}

static size_t word(const uint8_t *bytes)
{
    return bytes[0] + 256u * bytes[1];
}

/* The sheet's length by the trailer. A graph that is refused never asks for
 * the sheet, so that its counts may be anything. */
static size_t sheet_length(size_t graph_length)
{
    if (graph_length < 14)
        return 0;
    const uint8_t *trailer = graph + graph_length - 14;
    size_t length = SNELLAIR_SHEET_BYTES(word(trailer), word(trailer + 2),
                                         word(trailer + 10));
    return length <= SNELLAIR_LONGEST_SHEET ? length : 0;
}

/* A later Snellair may have answers that this loader doesn't know. */
static struct meaning meaning_of(unsigned number)
{
    struct meaning unknown = {"an answer that this loader doesn't know", "place"};
    if (number >= sizeof answers / sizeof answers[0] ||
        answers[number].says == NULL)
        return unknown;
    return answers[number];
}

/* What the answer names: a place, and beside it a type of resource and, where
 * the author's compiler told it, the source line of the node. */
static void print_named(uint64_t answer, const char *place)
{
    unsigned number = SNELLAIR_NUMBER(answer), type = SNELLAIR_TYPE(answer);
    printf(" (%s %lu", place, SNELLAIR_PLACE(answer));
    if (number == SNELLAIR_BROKEN_RULE && type == SNELLAIR_MARKS_ALONE)
        printf(", marks alone");
    else if (number == SNELLAIR_BROKEN_RULE || number == SNELLAIR_OVERDRAWN)
        printf(", type %u", type);
    if (SNELLAIR_LINE(answer) != 0)
        printf(", line %u", SNELLAIR_LINE(answer));
    printf(")");
}

/* Says the answer in words, where `pass` is what 0 says, and gives the exit
 * status. */
static int report(uint64_t answer, const char *pass)
{
    unsigned number = SNELLAIR_NUMBER(answer);
    struct meaning meaning = meaning_of(number);
    printf("%u: %s", number, number == SNELLAIR_PASS ? pass : meaning.says);
    if (meaning.place != NULL)
        print_named(answer, meaning.place);
    printf("\n");
    if (number == SNELLAIR_PASS)
        return 0;
    return number == SNELLAIR_OVERDRAWN || number == SNELLAIR_UNFIT ? 1 : 2;
}

/* Whether the argument is the option, which a graph file then follows. */
static int is_option(int argc, char **argv, const char *option)
{
    return argc == 3 && strcmp(argv[1], option) == 0;
}

static int fit(uint64_t (*profile)(const uint8_t *, size_t), const char *path,
               const char *pass)
{
    size_t length = read_file(path, graph, sizeof graph);
    return report(profile(graph, length), pass);
}

int main(int argc, char **argv)
{
    if (argc != 2 && argc != 3) {
        fprintf(stderr, "usage: loader GRAPH [SHEET]\n"
                        "       loader --one-shot GRAPH\n"
                        "       loader --session GRAPH\n");
        return 64;
    }
    if (is_option(argc, argv, "--one-shot"))
        return fit(snellair_one_shot, argv[2],
                   "every permit is asked for right before its use");
    if (is_option(argc, argv, "--session"))
        return fit(snellair_session, argv[2],
                   "every permit is asked for at start-up, for good");
    size_t graph_length = read_file(argv[1], graph, sizeof graph);
    if (argc == 2)
        return report(snellair_work_out_queued(graph, graph_length, sheet,
                                               sheet_length(graph_length), area,
                                               sizeof area),
                      suffices);
    size_t length = read_file(argv[2], sheet, sizeof sheet);
    return report(snellair_check(graph, graph_length, sheet, length), suffices);
}
