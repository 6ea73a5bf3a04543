/* Heaps of other allocators than glibc's, beside glibc's or in its place: each is looked for, and the blocks of all that are there come into one log. */
#include <stdlib.h>

#include "heaps.h"

static const struct kind {
    const char *name;
    enum finding (*walk)(struct other_heap *heap);
} kinds[] = {
    { "musl", walk_musl },
    { "jemalloc", walk_jemalloc },
    { "mimalloc", walk_mimalloc },
    { "tcmalloc 2.10", walk_tcmalloc },
};

enum { KINDS = sizeof kinds / sizeof *kinds };

/* The steps are many times those of a right heap. A block has at least one word of its own in the core; so has what is
 * free. */
static struct other_heap new_heap(struct core *core, const struct kind *kind)
{
    enum { STEPS = 4, MORE_STEPS = 1 << 22, SPAN = 8, MORE_SPANS = 1 << 20 };
    uint64_t dumped = 0, spans = core->file.size / SPAN + MORE_SPANS;

    for (size_t i = 0; i < core->segment_count; i++)
        dumped += core->segments[i].size;
    return (struct other_heap){ .core = core, .name = kind->name, .steps_left = STEPS * dumped + MORE_STEPS,
                                .spans_left = spans, .places_left = spans };
}

/* Most lists are in order, and qsort takes as much memory again. */
static void sort(struct spans *spans)
{
    size_t i = 1;

    while (i < spans->count && spans->list[i - 1].start <= spans->list[i].start)
        i++;
    if (i < spans->count)
        qsort(spans->list, spans->count, sizeof *spans->list, by_start);
}

/* Walks it, and sorts its blocks, of which no two may overlap. */
static enum finding walk_one(struct other_heap *heap, const struct kind *kind)
{
    enum finding found = kind->walk(heap);
    const struct span *over;

    if (found != WALKED)
        return found;
    sort(&heap->blocks);
    over = overlap_of(&heap->blocks);
    return over ? refuse(heap, "blocks overlap at 0x%llx", (unsigned long long)over->start) : WALKED;
}

static void add_all(struct spans *to, const struct spans *from)
{
    if (!to->count) {
        *to = *from;
        return;
    }
    for (size_t i = 0; i < from->count; i++) {
        to->list = grown(to->list, to->count, sizeof *to->list);
        to->list[to->count++] = from->list[i];
    }
    free(from->list);
}

/* Blocks of glibc's malloc with mappings of their own are known by two words: in memory of another heap these are that heap's. */
static void drop_mappings(struct heap *heap, const struct spans *taken)
{
    size_t left = 0, next = 0;

    for (size_t i = 0; i < heap->mapping_count; i++) {
        const struct mapping *m = heap->mappings + i;
        while (next < taken->count && taken->list[next].start + taken->list[next].room <= m->start)
            next++;
        if (next == taken->count || taken->list[next].start >= m->end)
            heap->mappings[left++] = *m;
    }
    heap->mapping_count = left;
}

/* All memory of the other heaps, sorted by start, without overlaps. */
static struct spans all_of(const struct others *others)
{
    struct spans all = { 0 }, both[] = { others->blocks, others->unused };

    for (size_t k = 0; k < 2; k++)
        for (size_t i = 0; i < both[k].count; i++) {
            all.list = grown(all.list, all.count, sizeof *all.list);
            all.list[all.count++] = both[k].list[i];
        }
    sort(&all);
    return all;
}

/* Joins the heaps that were found. */
static void join(struct heap *heap)
{
    struct others *others = &heap->others;
    struct spans all;
    const struct span *over;

    for (size_t i = 0; i < others->count; i++) {
        add_all(&others->blocks, &others->list[i].blocks);
        add_all(&others->unused, &others->list[i].unused);
    }
    sort(&others->blocks);
    over = overlap_of(&others->blocks);
    if (over)
        fail("%s: damaged: heaps overlap at 0x%llx", heap->core->path, (unsigned long long)over->start);
    sort(&others->unused);
    cut_out(&others->unused, &others->blocks);
    if (!heap->mapping_count)
        return;
    all = all_of(others);
    drop_mappings(heap, &all);
    free(all.list);
}

static void drop_spans(struct other_heap *heap)
{
    free(heap->blocks.list);
    free(heap->unused.list);
    heap->blocks = heap->unused = (struct spans){ 0 };
}

void walk_others(struct heap *heap)
{
    struct others *others = &heap->others;

    for (size_t i = 0; i < KINDS; i++) {
        struct other_heap one = new_heap(heap->core, kinds + i);
        enum finding found = walk_one(&one, kinds + i);
        if (found != WALKED)
            drop_spans(&one);
        if (found == NOT_THERE)
            continue;
        struct other_heap **to = found == WALKED ? &others->list : &others->refused;
        size_t *count = found == WALKED ? &others->count : &others->refused_count;
        *to = grown(*to, *count, sizeof one);
        (*to)[(*count)++] = one;
    }
    if (others->count)
        join(heap);
}

/* Passes on what it is told of glibc's heap, with blocks of the others in between. */
struct merger {
    struct visitor visitor;     /* comes first */
    struct visitor *to;
    const struct spans *blocks;
    size_t next;
};

static void pass_others(struct merger *m, uint64_t before)
{
    for (; m->next < m->blocks->count && m->blocks->list[m->next].start < before; m->next++)
        if (m->blocks->list[m->next].size)
            m->to->block(m->to, m->blocks->list[m->next].start, m->blocks->list[m->next].size);
}

static void pass_block(struct visitor *visitor, uint64_t start, uint64_t size)
{
    struct merger *m = (struct merger *)visitor;

    pass_others(m, start);
    m->to->block(m->to, start, size);
}

static void pass_unused(struct visitor *visitor, uint64_t from, uint64_t to)
{
    struct merger *m = (struct merger *)visitor;

    m->to->unused(m->to, from, to);
}

/* All blocks by ascending address, and what is not in use. */
void visit_all(struct heap *heap, struct visitor *visitor)
{
    const struct spans *unused = &heap->others.unused;
    struct merger m = { { pass_block, pass_unused }, visitor, &heap->others.blocks, 0 };

    for (size_t i = 0; i < unused->count; i++)
        visitor->unused(visitor, unused->list[i].start, unused->list[i].start + unused->list[i].size);
    if (!heap->wanting)
        visit(heap, &m.visitor);
    pass_others(&m, UINT64_MAX);
}
