/* What leak_walk says of a heap: whose it is, what is in it, what is in doubt, and why there is none. */
#include "log.h"

/* There is no heap that can be read. */
void refuse_heap(const struct heap *heap)
{
    const struct core *core = heap->core;
    const struct part *part = other_allocator(&core->parts);

    if (heap->others.refused_count)
        fail("%s: %s: %s: start the program by leak_trace, if it is not static", core->path, heap->others.refused->name, heap->others.refused->why);
    if (part)
        fail("%s: the allocator is %s, whose heap is not known: start the program by leak_trace", core->path, name_of(part));
    if (core->own_malloc)
        fail("%s: glibc's malloc was never called, and %s has or may have one of its own, which can't be read: build the program without it, "
             "or if that is a library, start the program by leak_trace", core->path, core->own_malloc->path);
    fail("%s: no %s: another allocator, or malloc was never called; start the program by leak_trace, if it is not static", core->path,
         heap->wanting);
}

static void put_lacking(const char *name)
{
    put_text("= leak_log lacks ");
    put_text(name);
    put_text("\n");
}

/* Says by remarks of the log whose heaps its blocks are of, and names another allocator, of which it has nothing. */
void put_allocators(const struct heap *heap)
{
    const struct others *others = &heap->others;
    const struct part *part = other_allocator(&heap->core->parts);

    if (!heap->wanting)
        put_allocator("glibc");
    for (size_t i = 0; i < others->count; i++)
        put_allocator(others->list[i].name);
    put_program(&heap->core->start, &heap->core->parts);
    for (size_t i = 0; i < others->refused_count; i++) {
        put_lacking(others->refused[i].name);
        warn("the blocks of %s are not in the log: %s", others->refused[i].name, others->refused[i].why);
    }
    if (!part || others->count || others->refused_count)
        return;
    put_lacking(name_of(part));
    warn("%s: its blocks are not in the log", part->path);
}

void tell_totals(const struct heap *heap, const struct totals *totals, const struct names *names)
{
    const struct others *others = &heap->others;

    if (others->count)
        warn("%llu blocks of %llu bytes in use, of %s%s; %llu bytes that are not in use", (unsigned long long)totals->blocks,
             (unsigned long long)totals->bytes, others->list[0].name, others->count > 1 || !heap->wanting ? " and others" : "",
             (unsigned long long)totals->free_bytes);
    else
        warn("%llu blocks of %llu bytes in use; %zu arenas; %llu free chunks of %llu bytes", (unsigned long long)totals->blocks,
             (unsigned long long)totals->bytes, heap->arena_count, (unsigned long long)totals->free_count,
             (unsigned long long)totals->free_bytes);
    if (names->head)
        warn("of %zu blocks of the table the heap has %zu: of these the callers are known", names->entries, names->fitting);
}

/* Whether something of another heap does not fit, as while a thread changes it. */
int has_odd_ones(const struct heap *heap)
{
    for (size_t i = 0; i < heap->others.count; i++)
        if (heap->others.list[i].odd)
            return 1;
    return 0;
}

static void tell_odd_ones(const struct others *others)
{
    for (size_t i = 0; i < others->count; i++)
        if (others->list[i].odd)
            warn("%s: %llu things are as while a thread changes them, or damaged, the first: %s", others->list[i].name,
                 (unsigned long long)others->list[i].odd, others->list[i].why);
}

void tell_doubts(const struct heap *heap)
{
    tell_odd_ones(&heap->others);
    if (heap->is_unused && !heap->others.count)
        warn("malloc was never called: there is no block");
    if (heap->odd_chunks.count)
        warn("%llu free chunks have no size behind them, the first at 0x%llx: stopped inside malloc, or damaged",
             (unsigned long long)heap->odd_chunks.count, (unsigned long long)heap->odd_chunks.first);
    if (heap->odd_lists.count)
        warn("%llu lists of free chunks lead nowhere, the first at 0x%llx: stopped inside malloc, or damaged",
             (unsigned long long)heap->odd_lists.count, (unsigned long long)heap->odd_lists.first);
}
