/* For tests of the C face: memory to lend with nothing around it, and graph
 * files read into it. A byte read or written beside the pages ends the program
 * by a signal. To be included before all else. */
#ifndef GUARDED_H
#define GUARDED_H

#define _DEFAULT_SOURCE
#include "snellair.h"

#include <stdio.h>
#include <stdlib.h>
#include <string.h>
#include <sys/mman.h>
#include <unistd.h>

/* Pages to lend, with one before and one after that can't be touched. */
struct pages {
    uint8_t *start;
    size_t size;
};

static inline void expect(int holds, const char *name, const char *what)
{
    if (holds)
        return;
    fprintf(stderr, "%s: %s\n", name, what);
    exit(1);
}

static inline void permit(struct pages pages, int what)
{
    expect(mprotect(pages.start, pages.size, what) == 0, "memory", "mprotect");
}

/* Can be read and written until it is permitted otherwise. */
static inline struct pages make_pages(size_t room)
{
    size_t page = (size_t)sysconf(_SC_PAGESIZE);
    size_t size = (room + page - 1) / page * page;
    uint8_t *all = mmap(NULL, size + 2 * page, PROT_NONE,
                        MAP_PRIVATE | MAP_ANONYMOUS, -1, 0);
    expect(all != MAP_FAILED, "memory", "mmap");
    struct pages pages = {all + page, size};
    permit(pages, PROT_READ | PROT_WRITE);
    return pages;
}

static inline uint8_t *place(struct pages pages, size_t length, int at_end)
{
    return at_end ? pages.start + pages.size - length : pages.start;
}

static inline size_t word(const uint8_t *bytes)
{
    return bytes[0] + 256u * bytes[1];
}

/* The length of the sheet of a graph that is not refused. */
static inline size_t sheet_length(const uint8_t *graph, size_t length)
{
    const uint8_t *trailer = graph + length - 14;
    return SNELLAIR_SHEET_BYTES(word(trailer), word(trailer + 2),
                                word(trailer + 10));
}

/* Reads a graph file to where it is lent, and keeps it from being written. */
static inline uint8_t *read_graph(const char *path, struct pages pages,
                                  int at_end, size_t *length)
{
    FILE *file = fopen(path, "rb");
    expect(file != NULL, path, "cannot be read");
    permit(pages, PROT_READ | PROT_WRITE);
    *length = fread(pages.start, 1, pages.size, file);
    fclose(file);
    uint8_t *graph = place(pages, *length, at_end);
    memmove(graph, pages.start, *length);
    permit(pages, PROT_READ);
    return graph;
}

#endif
