/* What the files of leak_walk share that write its log. */
#ifndef LEAK_WALK_LOG_H
#define LEAK_WALK_LOG_H

#include "../heaps/heaps.h"

/* names.c */
struct names {
    const char *path;
    const struct table_head *head;  /* NULL: there is no table */
    const struct spans *others; /* blocks of other heaps than glibc's */
    struct block *list;         /* by ascending start; of each start one */
    size_t count, entries;      /* of the list, and of the table */
    size_t fitting;             /* of these the heap has the block */
    uint64_t moment;            /* the newest stamp */
};

struct names read_names(const char *path, const struct core *core);
const struct block *name_of_block(struct names *names, struct core *core, uint64_t start, uint64_t size);
void match_names(struct heap *heap, struct names *names);
void put_names_remark(const struct names *names);

/* log.c, after.c, tell.c */
enum { MOST_HEAPS = 8 };        /* of one process, but glibc's */

struct old_block {
    uint64_t start, size, line; /* size 0: it ends here */
    int has_callers, is_same;
};

struct old_log {
    struct file file;
    uint64_t arena;             /* the main arena of its process, or 0 */
    uint64_t anchors[MOST_HEAPS]; /* of other heaps */
    size_t anchor_count;
    int has_names;              /* are its texts callers, by a table? */
    uint64_t moment;            /* then the newest stamp of that */
    struct old_block *list;     /* live blocks by ascending start */
    size_t count;
};

struct totals {
    uint64_t blocks, bytes, free_count, free_bytes;
};

struct old_log read_old_log(const char *path);
int is_same_process(const struct heap *heap, const struct old_log *old);
void write_old_log(struct heap *heap, struct old_log *old, struct names *names);
struct totals write_log(struct heap *heap, const struct old_log *old, struct names *names);
void write_arenas(struct heap *heap);
void write_unused(struct heap *heap);
__attribute__((noreturn)) void refuse_heap(const struct heap *heap);
void put_allocators(const struct heap *heap);
void tell_totals(const struct heap *heap, const struct totals *totals, const struct names *names);
void tell_doubts(const struct heap *heap);
int has_odd_ones(const struct heap *heap);

#endif
