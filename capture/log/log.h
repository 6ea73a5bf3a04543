/* What the files of leak_log share. */
#ifndef LEAK_LOG_H
#define LEAK_LOG_H

#include "../common/entries.h"

/* The segments of a core that have contents, by ascending start. */
struct contents {
    struct file file;
    struct content {
        uint64_t start, size, place;
    } *list;
    size_t count;
};

struct core {
    struct file file;
    struct headers headers;
    struct contents contents;
    struct parts parts;
    struct start start;
    int is_whole;               /* by leak_core, which has what the program keeps out of cores */
    struct signal_stacks stacks;
    struct ids {
        uint64_t *list;         /* the threads, as the core has them */
        size_t count;
        uint64_t process;       /* or 0 */
    } ids;
};

struct blocks {
    struct block *list;
    size_t count;
    uint64_t depth;             /* callers of a block */
    uint64_t moment;            /* the newest stamp */
    uint64_t base;              /* where the process has its table */
    int knows_freed;            /* is what is in none of them free? */
    uint64_t missed;            /* blocks that found no place in the table */
    uint64_t kept_out;          /* bytes that the core lacks because the program keeps them out */
    int is_more_kept_out;       /* are there more of them, of which the table does not say where? */
};

/* core.c */
struct core read_core(const char *path);
void tell_undumped(const struct core *core, const struct table_head *head);
uint64_t kept_out_bytes(const struct core *core, const struct table_head *head);

/* stacks.c */
uint64_t leave_out_stacks(struct blocks *fresh, const struct blocks *all, const struct table_head *head, const struct core *core);

/* blocks.c */
int by_stamp(const void *a, const void *b);
struct blocks read_table(struct file file, const struct core *core);
struct blocks read_log(struct file file);

/* freed.c */
void write_freed(struct file file, const struct core *core, const struct blocks *live);

#endif
