/* How much stack the C face takes: each call runs on a stack of its own, which
 * is painted first, for every graph file named as an argument; printed is the
 * most that was touched below the caller's frame, the return address with it. */
#define _DEFAULT_SOURCE
#include "snellair.h"

#include <stdio.h>
#include <stdlib.h>
#include <string.h>
#include <ucontext.h>

enum { STACK = 1 << 17, PAINT = 0xA5 };

static uint8_t graph[1 << 16];
static size_t graph_len;
static uint8_t sheet[SNELLAIR_LONGEST_SHEET];
static size_t sheet_len;
static uint8_t output[SNELLAIR_LISTING_ROOM];
static uint8_t area[SNELLAIR_AREA_BYTES];
static uint32_t row[2];

static uint8_t stack[STACK] __attribute__((aligned(64)));
static uint8_t *top; /* the stack pointer right before the call */

/* What stands behind the call keeps it from being a jump. */
#define RUN(name, call)                                    \
    static void name(void)                                 \
    {                                                      \
        __asm__ volatile("mov %%rsp, %0" : "=r"(top));     \
        (void)(call);                                      \
        __asm__ volatile("" : : : "memory");               \
    }

RUN(work_out, snellair_work_out(graph, graph_len, sheet, sheet_len))
RUN(work_out_queued, snellair_work_out_queued(graph, graph_len, sheet,
                                              sheet_len, area, sizeof area))
RUN(check, snellair_check(graph, graph_len, sheet, sheet_len))
RUN(check_many, snellair_check_many(graph, graph_len, sheet, sheet_len, row, 2))
RUN(listing, snellair_listing(graph, graph_len, sheet, sheet_len, output,
                              sizeof output))
RUN(one_shot, snellair_one_shot(graph, graph_len))
RUN(session, snellair_session(graph, graph_len))

/* In an order in which check finds what work out wrote. */
static const struct {
    const char *name;
    void (*run)(void);
} calls[] = {{"snellair_work_out", work_out},
             {"snellair_work_out_queued", work_out_queued},
             {"snellair_check", check},
             {"snellair_check_many", check_many},
             {"snellair_listing", listing},
             {"snellair_one_shot", one_shot},
             {"snellair_session", session}};
enum { CALLS = sizeof calls / sizeof *calls };

static size_t touched(void (*run)(void))
{
    static ucontext_t here, there;
    size_t low = 0;

    memset(stack, PAINT, sizeof stack);
    getcontext(&there);
    there.uc_stack.ss_sp = stack;
    there.uc_stack.ss_size = sizeof stack;
    there.uc_link = &here;
    makecontext(&there, run, 0);
    swapcontext(&here, &there);
    while (low < sizeof stack && stack[low] == PAINT)
        low++;
    return (size_t)(top - (stack + low / 8 * 8));
}

static size_t word(size_t at)
{
    return graph[at] + 256u * graph[at + 1];
}

static void read_graph(const char *name)
{
    FILE *file = fopen(name, "rb");
    if (file == NULL) {
        perror(name);
        exit(1);
    }
    graph_len = fread(graph, 1, sizeof graph, file);
    fclose(file);
    sheet_len = 0;
    if (graph_len >= 14)
        sheet_len = SNELLAIR_SHEET_BYTES(word(graph_len - 14), word(graph_len - 12),
                                         word(graph_len - 4));
    if (sheet_len > sizeof sheet)
        sheet_len = 0;
}

int main(int argc, char **argv)
{
    size_t most[CALLS] = {0};

    for (int i = 1; i < argc; i++) {
        read_graph(argv[i]);
        for (size_t k = 0; k < CALLS; k++) {
            size_t bytes = touched(calls[k].run);
            if (bytes > most[k])
                most[k] = bytes;
        }
    }
    for (size_t k = 0; k < CALLS; k++)
        printf("%-25s %6zu bytes\n", calls[k].name, most[k]);
    return 0;
}
