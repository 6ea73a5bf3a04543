/* The live blocks of a log (mtrace's format; glibc, malloc/mtrace.c) and which of them the report says are lost. */
#define _GNU_SOURCE
#include <stdlib.h>

#include "what.h"

/* What happened last at an address. Size and state are of an allocation; else the block ended. */
struct event {
    uint64_t start, size, line;
    const char *at;             /* its line, of which a typed log tells the type */
    int is_live;
};

struct events {
    struct event *list;
    size_t count;
};

/* Where the last word before `stop` begins. */
static const char *last_word(const char *at, const char *stop)
{
    const char *space = stop > at ? memrchr(at, ' ', stop - at) : NULL;

    return space ? space + 1 : at;
}

/* Reads the end of a line: + ADDRESS SIZE, > ADDRESS SIZE, - ADDRESS or < ADDRESS. A text before it may have any words.
 * */
static int read_event(const char *at, const char *stop, struct event *event)
{
    const char *last = last_word(at, stop), *middle = last > at ? last_word(at, last - 1) : at;
    const char *sign = last - middle == 2 || middle == at ? middle : last_word(at, middle - 1);
    const char *address = sign == middle ? last : middle;

    if (address - sign != 2 || !strchr(sign == middle ? "-<" : "+>", *sign) || !begins(address, stop, "0x"))
        return 0;
    event->start = strtoull(address, NULL, 16);
    event->is_live = sign != middle;
    event->size = event->is_live ? strtoull(last, NULL, 16) : 0;
    return 1;
}

static void add_freed(struct blocks *blocks, const struct event *event)
{
    blocks->freed = grown(blocks->freed, blocks->freed_count, sizeof *blocks->freed);
    blocks->freed[blocks->freed_count++] = (struct range){ event->start, event->start + event->size };
}

/* A block that ends on the next line is free memory: so capture's logs say it. */
static void add_event(struct blocks *blocks, struct events *events, const struct event *event)
{
    const struct event *before = events->count ? events->list + events->count - 1 : NULL;

    if (before && !event->is_live && before->is_live && before->start == event->start
        && before->line + 1 == event->line) {
        add_freed(blocks, before);
        events->count--;
        return;
    }
    if (event->size > UINT64_MAX - event->start)
        fail("%s: a block at 0x%llx has a wrong size", blocks->path, (unsigned long long)event->start);
    events->list = grown(events->list, events->count, sizeof *events->list);
    events->list[events->count++] = *event;
}

static int by_start_and_line(const void *a, const void *b)
{
    const struct event *x = a, *y = b;

    return x->start != y->start ? (x->start < y->start ? -1 : 1) : (x->line > y->line) - (x->line < y->line);
}

/* Keeps of each start the last event, if it is an allocation; one that goes over into another's memory ended it, or was
 * ended. */
static void keep_live(struct blocks *blocks, struct events *events)
{
    uint64_t line = 0;

    if (events->count)
        qsort(events->list, events->count, sizeof *events->list, by_start_and_line);
    for (size_t i = 0; i < events->count; i++) {
        const struct event *e = events->list + i;
        const struct block *last = blocks->count ? blocks->list + blocks->count - 1 : NULL;
        if ((i + 1 < events->count && e[1].start == e->start) || !e->is_live)
            continue;
        if (last && last->start + last->size > e->start) {
            if (e->line < line)
                continue;
            blocks->count--;
        }
        if (blocks->is_typed) {
            blocks->lines = grown(blocks->lines, blocks->count, sizeof *blocks->lines);
            blocks->lines[blocks->count] = e->at;
        }
        blocks->list = grown(blocks->list, blocks->count, sizeof *blocks->list);
        blocks->list[blocks->count++] = (struct block){ e->start, e->size };
        line = e->line;
    }
}

/* Sorts and joins the free memory. */
static void join_freed(struct blocks *blocks)
{
    size_t left = 0;

    if (blocks->freed_count)
        qsort(blocks->freed, blocks->freed_count, sizeof *blocks->freed, by_start);
    for (size_t i = 0; i < blocks->freed_count; i++) {
        struct range r = blocks->freed[i], *last = left ? blocks->freed + left - 1 : NULL;
        if (last && r.start <= last->end)
            last->end = r.end > last->end ? r.end : last->end;
        else
            blocks->freed[left++] = r;
    }
    blocks->freed_count = left;
}

/* Whether leak_what wrote it, with types: its first line says so. */
int is_typed(struct file log)
{
    const char *at = (const char *)log.bytes;

    return begins(at, at + log.size, typed_remark);
}

static struct blocks read_log(const char *path)
{
    struct file log = map_file(path);
    struct blocks blocks = { .path = path, .is_typed = is_typed(log) };
    struct events events = { 0 };
    const char *at = (const char *)log.bytes, *stop, *end = at + log.size;
    struct event event = { 0 };

    for (; at < end; at = stop + 1) {
        stop = end_of_line(log, at);
        event.line++;
        event.at = at;
        if (read_event(at, stop, &event))
            add_event(&blocks, &events, &event);
    }
    keep_live(&blocks, &events);
    join_freed(&blocks);
    free(events.list);
    if (!blocks.count)
        fail("%s: no log with live blocks", path);
    blocks.low = blocks.list[0].start;
    blocks.high = blocks.list[blocks.count - 1].start + blocks.list[blocks.count - 1].size;
    return blocks;
}

/* The number of the block that the address is in, or NONE. */
long block_of(const struct blocks *blocks, uint64_t address)
{
    size_t low = 0, high = blocks->count;

    if (address < blocks->low || address >= blocks->high)
        return NONE;
    while (low < high) {
        size_t middle = low + (high - low) / 2;
        if (blocks->list[middle].start <= address)
            low = middle + 1;
        else
            high = middle;
    }
    if (!low || address - blocks->list[low - 1].start >= (blocks->list[low - 1].size ? blocks->list[low - 1].size : 1))
        return NONE;
    return low - 1;
}

/* Whether the address is in memory that is free. */
int is_freed(const struct blocks *blocks, uint64_t address)
{
    size_t low = 0, high = blocks->freed_count;

    while (low < high) {
        size_t middle = low + (high - low) / 2;
        if (blocks->freed[middle].start <= address)
            low = middle + 1;
        else
            high = middle;
    }
    return low && address < blocks->freed[low - 1].end;
}

/* Whether malloc gives a block of this size for so many bytes: it rounds up to 24, 40, 56, ..; one with a mapping of
 * its own has whole pages. */
int fits_block(uint64_t size, uint64_t usable)
{
    enum { HEAP_SLACK = 16, LEAST_USABLE = 24, LARGE = 128 << 10, MAPPED_SLACK = PAGE + 16 };
    uint64_t slack = size >= LARGE ? MAPPED_SLACK : usable == LEAST_USABLE ? LEAST_USABLE : HEAP_SLACK;

    return size && size <= usable && usable - size < slack;
}

/* The type of the block with this number in a typed log, or NULL: the text is a size, a place or a caller. */
const char *type_of_block(const struct blocks *blocks, long number, uint64_t *length)
{
    const char *line = blocks->is_typed ? blocks->lines[number] : NULL, *text = line + strlen("@ "), *stop, *sign;

    if (!line || *line != '@')
        return NULL;
    stop = rawmemchr(line, '\n');
    sign = memmem(text, stop - text, " + 0x", 5);
    *length = sign ? sign - text : 0;
    return *length && *text != '?' && !memchr(text, '[', *length) && !begins(text, sign, "size ") ? text : NULL;
}

/* Marks the block of a line of the report: leak ADDRESS SIZE LINE KIND TEXT. */
static void mark_lost(struct blocks *blocks, const char *line, const char *path)
{
    char *rest;
    uint64_t start = strtoull(line + strlen("leak "), &rest, 16), size = strtoull(rest, NULL, 10);
    long block = block_of(blocks, start);

    if (block == NONE || blocks->list[block].start != start || blocks->list[block].size != size)
        fail("%s: the block at 0x%llx is not in %s: report and log don't belong together", path,
             (unsigned long long)start, blocks->path);
    blocks->lost_count += blocks->state[block] != LOST;
    blocks->state[block] = LOST;
}

static void read_report(struct blocks *blocks, const char *report)
{
    struct file file = map_file(report);
    const char *at = (const char *)file.bytes, *stop, *end = at + file.size;

    for (; at < end; at = stop + 1) {
        stop = end_of_line(file, at);
        if (begins(at, stop, "leak 0x"))
            mark_lost(blocks, at, report);
    }
}

/* The live blocks of the log; without a report none is lost. */
struct blocks read_blocks(const char *log, const char *report)
{
    struct blocks blocks = read_log(log);

    blocks.state = calloc(blocks.count, 1);
    if (!blocks.state)
        fail("out of memory");
    if (report)
        read_report(&blocks, report);
    return blocks;
}
