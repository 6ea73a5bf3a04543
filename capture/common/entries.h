/* The blocks of a table that leak_trace.so keeps, which leak_log and leak_walk read. */
#ifndef LEAK_ENTRIES_H
#define LEAK_ENTRIES_H

#include "../table.h"
#include "common.h"

/* A block of the table, or of an earlier log: then the stamp counts the lines, and there are no callers. */
struct block {
    uint64_t start, size, stamp;
    const uint64_t *callers;    /* complemented */
};

struct entries {
    const struct table_head *head;
    struct block *list;
    size_t count;
    size_t moving;              /* blocks that realloc has just now */
};

struct entries read_entries(struct file file, const struct parts *parts);
int by_start_and_stamp(const void *a, const void *b);
void put_callers(struct parts *parts, uint64_t room, const struct block *block, uint64_t depth);

#endif
