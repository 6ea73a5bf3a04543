/* --after: an earlier log of leak_walk, of the same process. */
#define _GNU_SOURCE
#include <stdlib.h>
#include <string.h>

#include "log.h"

static int by_start_and_line(const void *a, const void *b)
{
    const struct old_block *x = a, *y = b;

    return x->start != y->start ? (x->start < y->start ? -1 : 1) : (x->line > y->line) - (x->line < y->line);
}

static void add(struct old_log *log, uint64_t start, uint64_t size, int has_callers)
{
    log->list = grown(log->list, log->count, sizeof *log->list);
    log->list[log->count] = (struct old_block){ start, size, log->count, has_callers, 0 };
    log->count++;
}

/* `@ TEXT + 0xADDR 0xSIZE`: a text may have a plus sign, what follows it has none. */
static int add_old_block(struct old_log *log, const char *at, const char *stop)
{
    const char *place = memrchr(at, '+', stop - at);
    char *rest;
    uint64_t start;

    if (!begins(at, stop, "@ ") || !place || !begins(place, stop, "+ 0x"))
        return 0;
    start = strtoull(place + strlen("+ 0x"), &rest, 16);
    if (!begins(rest, stop, " 0x"))
        return 0;
    add(log, start, strtoull(rest + strlen(" 0x"), NULL, 16), memmem(at, place - at, "[0x", 3) != NULL);
    return 1;
}

/* The last one counts: that of the newest moment. */
static void read_names_remark(struct old_log *log, const char *at, const char *stop)
{
    static const char names[] = "= leak_log names since ", moment[] = " moment 0x";
    char *rest;

    if (!begins(at, stop, names))
        return;
    strtoull(at + strlen(names), &rest, 10);
    log->has_names = begins(rest, stop, moment);
    log->moment = log->has_names ? strtoull(rest + strlen(moment), NULL, 16) : 0;
}

/* Reads a line. Memory that was free then begins and ends at once, and is no block. */
static int read_line(struct old_log *log, const char *at, const char *stop, uint64_t *freed)
{
    static const char own[] = "= leak_walk arena 0x", other[] = "= leak_walk heap 0x";
    uint64_t start;

    if (begins(at, stop, own))
        log->arena = strtoull(at + strlen(own), NULL, 16);
    if (begins(at, stop, other) && log->anchor_count < MOST_HEAPS)
        log->anchors[log->anchor_count++] = strtoull(at + strlen(other), NULL, 16);
    read_names_remark(log, at, stop);
    if (begins(at, stop, "= "))
        return 1;
    if (!begins(at, stop, "+ 0x") && !begins(at, stop, "- 0x"))
        return add_old_block(log, at, stop);
    start = strtoull(at + strlen("+ 0x"), NULL, 16);
    if (*at == '-' && start != *freed)
        add(log, start, 0, 0);
    *freed = *at == '+' ? start : 0;
    return 1;
}

/* Sorts by start, and keeps of each start the last line, if that is a block. */
static void keep_live(struct old_log *log)
{
    size_t left = 0;

    if (log->count)
        qsort(log->list, log->count, sizeof *log->list, by_start_and_line);
    for (size_t i = 0; i < log->count; i++)
        if ((i + 1 == log->count || log->list[i + 1].start != log->list[i].start) && log->list[i].size)
            log->list[left++] = log->list[i];
    log->count = left;
}

struct old_log read_old_log(const char *path)
{
    struct old_log log = { .file = map_file(path) };
    const char *at = (const char *)log.file.bytes, *stop, *end = at + log.file.size;
    uint64_t freed = 0;

    for (; at < end; at = stop + 1) {
        stop = end_of_line(log.file, at);
        if (!read_line(&log, at, stop, &freed))
            fail("%s: not a log of leak_walk", path);
    }
    if (!log.arena && !log.anchor_count)
        fail("%s: not a log of leak_walk", path);
    keep_live(&log);
    return log;
}

static int has_anchor(const struct others *others, uint64_t anchor)
{
    for (size_t i = 0; i < others->count; i++)
        if (others->list[i].anchor == anchor)
            return 1;
    return 0;
}

/* Whether each heap of the earlier log is there, at the same place. */
int is_same_process(const struct heap *heap, const struct old_log *old)
{
    const struct arena *arena = heap->wanting || !old->arena ? NULL : arena_at(heap, old->arena);
    int is_same = !old->arena || (arena && !arena->first_heap);

    for (size_t i = 0; i < old->anchor_count; i++)
        is_same = is_same && has_anchor(&heap->others, old->anchors[i]);
    return is_same;
}

struct matcher {
    struct visitor visitor;     /* comes first */
    struct old_log *old;
    struct names *names;
    struct core *core;
    size_t next;
};

/* Whether the callers that the earlier log tells, or that it tells none, may still be said of the block: the table has it from before that
 * moment, or neither knows who asked for it. */
static int has_same_callers(struct matcher *m, const struct old_block *old)
{
    const struct block *now = name_of_block(m->names, m->core, old->start, old->size);

    return !m->old->has_names || (now ? now->stamp <= m->old->moment : !old->has_callers);
}

/* A block with the start and the size of an old one is that one. */
static void match(struct visitor *visitor, uint64_t start, uint64_t size)
{
    struct matcher *m = (struct matcher *)visitor;
    struct old_block *old;

    while (m->next < m->old->count && m->old->list[m->next].start < start)
        m->next++;
    old = m->old->list + m->next;
    if (m->next < m->old->count && old->start == start)
        old->is_same = old->size == size && has_same_callers(m, old);
}

static void pass(struct visitor *visitor, uint64_t from, uint64_t to)
{
    (void)visitor, (void)from, (void)to;
}

/* Writes the earlier log, and ends each of its blocks that is no longer there. */
void write_old_log(struct heap *heap, struct old_log *old, struct names *names)
{
    struct matcher m = { .visitor = { match, pass }, .old = old, .names = names, .core = heap->core };

    visit_all(heap, &m.visitor);
    put_bytes(old->file.bytes, old->file.size);
    for (size_t i = 0; i < old->count; i++)
        if (!old->list[i].is_same) {
            put_hex("- 0x", old->list[i].start);
            put_text("\n");
        }
}
