/* The depot's tool: takes a graph file and any number of sheet files, checks
 * the sheets against the graph, twenty in a call, so that the graph is judged
 * once at the start and once for each call, and prints one line for each sheet:
 * its file's name, and what was found. Ends with 0 where every sheet passes, 1
 * where one doesn't, 2 where the graph is refused, 64 for a wrong call, 66 where
 * a file can't be read, 74 where a line can't be written. A sheet that can't be
 * read keeps no other from being checked. */
#include "snellair.h"

#include <stdio.h>
#include <stdlib.h>

enum { MOST = (int)SNELLAIR_MOST_SHEETS };

static const size_t unread = (size_t)-1;

static uint8_t graph[SNELLAIR_LONGEST_GRAPH + 1];
static size_t graph_length;

/* The sheets of one call, end to end, with room for one byte too many, so that
 * a longer file is seen to be longer. */
static struct {
    uint8_t sheets[SNELLAIR_MOST_SHEETS * SNELLAIR_LONGEST_SHEET + 1];
    const char *names[MOST];
    size_t size, count;
    int all_pass, all_read;
} batch;

/* Reads at most `room` bytes; `unread` where the file can't be read. */
static size_t read_file(const char *path, uint8_t *bytes, size_t room)
{
    FILE *file = fopen(path, "rb");
    if (file == NULL) {
        perror(path);
        return unread;
    }
    size_t length = fread(bytes, 1, room, file);
    if (ferror(file)) {
        perror(path);
        length = unread;
    }
    fclose(file);
    return length;
}

static size_t word(const uint8_t *bytes)
{
    return bytes[0] + 256u * bytes[1];
}

/* The length of a sheet, by the trailer of a graph that is not refused. */
static size_t sheet_length(void)
{
    const uint8_t *trailer = graph + graph_length - 14;
    return SNELLAIR_SHEET_BYTES(word(trailer), word(trailer + 2),
                                word(trailer + 10));
}

static void print_line(const char *name, uint32_t number, uint32_t place)
{
    unsigned long at = place;
    switch (number) {
    case SNELLAIR_PASS:
        printf("%s: pass\n", name);
        return;
    case SNELLAIR_BAD_BLOCK:
        printf("%s: a block is ill formed, at word %lu\n", name, at);
        break;
    case SNELLAIR_BROKEN_RULE:
        printf("%s: rule %lu is broken\n", name, at);
        break;
    case SNELLAIR_OVERDRAWN:
        printf("%s: overdrawn at node %lu\n", name, at);
        break;
    case SNELLAIR_BAD_SHEET:
        printf("%s: the length is wrong\n", name);
        break;
    default:
        printf("%s: answer %lu, place %lu, which this tool doesn't know\n",
               name, (unsigned long)number, at);
    }
    batch.all_pass = 0;
}

/* The sheets that wait are checked, in one call, and their lines printed. */
static void check_batch(void)
{
    uint32_t row[2 * MOST];
    if (batch.count == 0)
        return;
    uint64_t answer =
        snellair_check_many(graph, graph_length, batch.sheets,
                            batch.count * batch.size, row, 2 * batch.count);
    if (answer != SNELLAIR_PASS)
        abort(); /* the graph and the lengths are right */
    for (size_t i = 0; i < batch.count; i++)
        print_line(batch.names[i], row[2 * i], row[2 * i + 1]);
    batch.count = 0;
}

/* A file of another length would make the whole call one of wrong lengths. */
static void add_sheet(const char *name)
{
    uint8_t *sheet = batch.sheets + batch.count * batch.size;
    size_t length = read_file(name, sheet, batch.size + 1);
    if (length != batch.size) {
        check_batch();
        if (length == unread) {
            printf("%s: can't be read\n", name);
            batch.all_read = 0;
        } else {
            print_line(name, SNELLAIR_BAD_SHEET, 0);
        }
        return;
    }
    batch.names[batch.count++] = name;
    if (batch.count == SNELLAIR_MOST_SHEETS)
        check_batch();
}

/* The graph is well formed; else its refusal is printed. With no sheet such a
 * graph gets the answer of that, and one above the longest is refused by its
 * length, since it was not read to its end. */
static int graph_is_good(const char *name)
{
    uint64_t answer =
        snellair_check_many(graph, graph_length, NULL, 0, NULL, 0);
    if (graph_length > SNELLAIR_LONGEST_GRAPH)
        answer = SNELLAIR_BAD_LENGTH;
    if (SNELLAIR_NUMBER(answer) == SNELLAIR_BAD_ROW)
        return 1;
    printf("%s: refused %u %lu\n", name, SNELLAIR_NUMBER(answer),
           SNELLAIR_PLACE(answer));
    return 0;
}

/* Of all that was to be done. */
static int status(void)
{
    if (fflush(stdout) != 0 || ferror(stdout)) {
        perror("depot");
        return 74;
    }
    if (!batch.all_read)
        return 66;
    return batch.all_pass ? 0 : 1;
}

int main(int argc, char **argv)
{
    if (argc < 2) {
        fprintf(stderr, "usage: depot GRAPH [SHEET ..]\n");
        return 64;
    }
    graph_length = read_file(argv[1], graph, sizeof graph);
    if (graph_length == unread)
        return 66;
    if (!graph_is_good(argv[1]))
        return 2;
    batch.size = sheet_length();
    batch.all_pass = batch.all_read = 1;
    for (int i = 2; i < argc; i++)
        add_sheet(argv[i]);
    check_batch();
    return status();
}
