/* The blocks of a table, and those that an earlier log leaves live. */
#define _GNU_SOURCE
#include <stdlib.h>
#include <string.h>

#include "log.h"

int by_stamp(const void *a, const void *b)
{
    const struct block *x = a, *y = b;

    return (x->stamp > y->stamp) - (x->stamp < y->stamp);
}

/* Sorts by start, and keeps of the blocks with one start the newest, if it is one (its size is not 0 or
 * `even_empty` is set). Gives how many are dropped. */
static size_t keep_newest(struct blocks *blocks, int even_empty)
{
    size_t left = 0, count = blocks->count;
    struct block *list = blocks->list;

    if (count)
        qsort(list, count, sizeof *list, by_start_and_stamp);
    for (size_t i = 0; i < count; i++)
        if ((i + 1 == count || list[i + 1].start != list[i].start) && (list[i].size || even_empty))
            list[left++] = list[i];
    blocks->count = left;
    return count - left;
}

struct blocks read_table(struct file file, const struct core *core)
{
    struct entries entries = read_entries(file, &core->parts);
    const struct table_head *head = entries.head;
    struct blocks blocks = { .list = entries.list, .count = entries.count, .depth = head->depth, .base = head->base };
    const size_t moving = entries.moving;

    if (head->began)
        fail("%s: the table began when the process was running: it lacks the blocks from before, which leak_walk --names has", file.path);
    for (size_t i = 0; i < blocks.count; i++)
        if (blocks.moment < blocks.list[i].stamp)
            blocks.moment = blocks.list[i].stamp;
    size_t dropped = keep_newest(&blocks, 1);
    tell_undumped(core, head);
    blocks.missed = head->missed;
    blocks.kept_out = kept_out_bytes(core, head);
    blocks.is_more_kept_out = head->kept_out_missed && !core->is_whole;
    if (head->missed)
        warn("%llu blocks found no place in the table (%s): leaks among them are not reported", (unsigned long long)head->missed,
             head->refused ? strerror(head->refused) : "it is full");
    if (moving)
        warn("%zu blocks are just being moved by realloc, to places that are not known yet: the table has no freed memory", moving);
    blocks.knows_freed = !moving && !head->missed;
    if (dropped)
        warn("%zu blocks were freed behind leak_trace's back: others like them may be false positives", dropped);
    return blocks;
}

/* What an earlier log of leak_log leaves live: of each start the last line, if it allocates. */
struct blocks read_log(struct file file)
{
    static const char head[] = "= leak_log moment 0x", base[] = " table 0x", came[] = "] + 0x", went[] = "- 0x", freed[] = "+ 0x",
                      remark[] = "= leak_log ", heap[] = "= leak_walk unused 0x";
    const char *at = (const char *)file.bytes, *end = at + file.size, *stop;
    struct blocks blocks = { 0 };
    int is_ours = 0;

    for (; at < end; at = stop + 1) {
        stop = end_of_line(file, at);
        const char *where = memrchr(at, ']', stop - at), *start = where ? where + strlen(came) : at + strlen(went);
        if ((begins(at, stop, remark) && !begins(at, stop, head)) || begins(at, stop, heap))
            continue;
        if (begins(at, stop, head)) {
            char *rest;
            blocks.moment = strtoull(at + strlen(head), &rest, 16);
            is_ours = begins(rest, stop, base);
            blocks.base = is_ours ? strtoull(rest + strlen(base), NULL, 16) : 0;
        } else if (where ? begins(where, stop, came) : begins(at, stop, went)) {
            blocks.list = grown(blocks.list, blocks.count, sizeof *blocks.list);
            blocks.list[blocks.count] = (struct block){ strtoull(start, NULL, 16), where != NULL, blocks.count, NULL };
            blocks.count++;
        } else if (where || !begins(at, stop, freed))
            fail("%s: not a log of leak_log", file.path);
    }
    if (!is_ours)
        fail("%s: not a log of leak_log", file.path);
    keep_newest(&blocks, 0);
    return blocks;
}
