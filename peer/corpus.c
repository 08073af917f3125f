/* What crates/corpus_work prints, by the peer: for each file named, the name,
 * the answer's number, type, place and line; after a verdict each marked block
 * of the sheet, by its first word's number and then its words. */
#include "answer.h"
#include "format.h"
#include "peer.h"
#include "sheet.h"

#include <stdio.h>

static void print_block(struct shape s, const uint8_t *sheet, unsigned block)
{
    unsigned first = block_at(s, block);
    unsigned words = 1 + block_words(s, block);
    if (read_word(sheet + 2 * (size_t)first) == 0)
        return;
    printf("%u", first);
    for (unsigned w = first; w < first + words; w++)
        printf(" %u", read_word(sheet + 2 * (size_t)w));
    putchar('\n');
}

static void print_file(const char *name, const uint8_t *graph, size_t length)
{
    static uint8_t sheet[MOST_SHEET_BYTES];
    struct shape s = {0, 0, 0};
    /* A refusal of the file stands whatever the sheet's length is. */
    uint64_t answer = peer_work_out(graph, length, sheet, 0);
    if (answer == 10) {
        s = shape_of(graph, length);
        answer = peer_work_out(graph, length, sheet, sheet_bytes(s));
    }
    printf("%s %u %u %u %u\n", name, number_in(answer), type_in(answer),
           place_in(answer), line_in(answer));
    for (unsigned block = 0; block < block_count(s); block++)
        print_block(s, sheet, block);
}

int main(int argc, char **argv)
{
    static uint8_t graph[65536];
    for (int i = 1; i < argc; i++) {
        FILE *file = fopen(argv[i], "rb");
        if (file == NULL) {
            perror(argv[i]);
            return 1;
        }
        size_t length = fread(graph, 1, sizeof graph, file);
        fclose(file);
        print_file(argv[i], graph, length);
    }
    return 0;
}
