/* The heap of jemalloc 5.3 or 5.2.1, without symbols (include/jemalloc/internal/{base,rtree,edata,emap,sc}.h,
 * src/{base,emap,cache_bin,tcache}.c; of 5.2.1 {base_structs,rtree,extent_structs,sc}.h, src/{base,extent,tcache}.c).
 *
 * Its records lie in base blocks of 2 MiB or more, whose heads check themselves. The root of its tree of extents is
 * found by a word that leads to a leaf, whose first extent says where in the root that word is. All extents are in the
 * tree, and those with small regions have a map of the free ones. */
#include <stdlib.h>
#include <string.h>

#include "jemalloc.h"

enum { HUGE = 2 << 20 };

static const uint64_t MOST_SIZE = (uint64_t)7 << 60; /* SC_LARGE_MAXCLASS */

/* sc.h, by LG_QUANTUM: 8 and four multiples of the quantum, then four sizes for each doubling. Small ones are below four
 * pages. */
static void set_sizes(struct jemalloc *je, uint64_t quantum)
{
    uint64_t step = quantum;

    je->classes = 0;
    if (quantum > 8)
        je->size_of[je->classes++] = 8;
    for (uint64_t size = quantum; size <= MOST_SIZE; size += step) {
        je->size_of[je->classes++] = size;
        if (size < 4 * PAGE)
            je->bins = je->classes;
        if (size >= 8 * step)
            step *= 2;
    }
}

int is_in_base(const struct jemalloc *je, uint64_t at, uint64_t size)
{
    size_t low = 0, high = je->base_count;

    while (low < high) {
        size_t middle = low + (high - low) / 2;
        if (je->bases[middle].end <= at)
            low = middle + 1;
        else
            high = middle;
    }
    return low < je->base_count && je->bases[low].start <= at && size <= je->bases[low].end - at;
}

/* base.h, struct base_block_s: its size, the next one, and of its unused end an edata, with address and size. */
static int is_base(struct jemalloc *je, uint64_t at, uint64_t *size)
{
    uint64_t next, address, left;

    return read_word(je->heap, at, size) && *size && *size % HUGE == 0 && *size < (uint64_t)1 << 40 && read_word(je->heap, at + 8, &next)
        && next % HUGE == 0 && read_word(je->heap, at + 24, &address) && address > at && address - at <= *size
        && read_word(je->heap, at + 32, &left) && left == at + *size - address;
}

static void find_bases(struct jemalloc *je)
{
    const struct segment *s;
    size_t next = 0;
    uint64_t size;

    while ((s = next_writable(je->heap, &next)))
        for (uint64_t at = (s->start + HUGE - 1) & -(uint64_t)HUGE; at >= s->start && at - s->start < s->size && je->heap->steps_left;
             at = next_multiple(je->heap, at, HUGE))
            if (is_base(je, at, &size)) {
                je->bases = grown(je->bases, je->base_count, sizeof *je->bases);
                je->bases[je->base_count++] = (struct range){ .start = at, .end = at + size };
            }
}

/* Whether each base block leads to another, or to none. */
static int are_chained(struct jemalloc *je)
{
    uint64_t next;

    for (size_t i = 0; i < je->base_count; i++) {
        if (i && je->bases[i].start < je->bases[i - 1].end)
            return 0;
        if (!read_word(je->heap, je->bases[i].start + 8, &next) || (next && !bsearch(&next, je->bases, je->base_count, sizeof *je->bases, by_start)))
            return 0;
    }
    return 1;
}

static void tell_slab(struct jemalloc *je, const struct slab *s)
{
    uint64_t size = je->size_of[s->class], at = s->start;

    for (uint64_t i = 0; i < (s->end - s->start) / size; i++, at += size)
        if (has_bit(s->free, i) || has_bit(s->cached, i))
            add_unused(je->heap, at, at + size);
        else if (!has_bit(s->own, i))
            add_block(je->heap, at, size, size);
}

/* A block begins at a random place of its first page; the other bytes of its extent are nobody's. */
static void tell_large(struct jemalloc *je, const struct large *l)
{
    if (l->use == CACHED)
        add_unused(je->heap, l->first, l->end);
    if (l->use != IN_USE)
        return;
    add_unused(je->heap, l->first, l->end);
    add_block(je->heap, l->start, l->size, l->size);
}

/* Tells all. The stacks of caches are no blocks; where no thread is at work, their words are no pointers of the
 * program either. */
static void tell_all(struct jemalloc *je)
{
    for (size_t i = 0; i < je->slab_count; i++)
        tell_slab(je, je->slabs + i);
    for (size_t i = 0; i < je->large_count; i++)
        tell_large(je, je->larges + i);
    for (size_t i = 0; i < je->base_count; i++)
        add_unused(je->heap, je->bases[i].start, je->bases[i].end);
    for (size_t i = 0; i < je->stack_count && !je->heap->inside; i++) {
        const struct large *l = large_at(je, je->stacks[i].start);
        const struct slab *s = slab_at(je, je->stacks[i].start);
        uint64_t size = l ? l->size : je->size_of[s->class];
        add_unused(je->heap, je->stacks[i].start, je->stacks[i].start + size);
    }
}

static const struct layout layouts[] = {
    { "jemalloc 5.3", 17, 7, 20, 28, -((uint64_t)1 << 45), EDATA_BYTES, EDATA_BYTES - 1, 1, take_thread_caches },
    { "jemalloc 5.2.1", 16, 3, 18, 26, 0, 64, 1, 0, take_old_caches },
};

/* Forgets what was found by another layout. */
static void forget(struct jemalloc *je)
{
    je->slab_count = je->large_count = je->heap->unused.count = 0;
    je->is_padded = je->is_bare = 0;
    memset(je->regions_of, 0, sizeof je->regions_of);
    je->heap->odd = 0;
    je->refused = NULL;
}

/* Takes the extents by the sizes of a quantum. Gives how many things are odd. */
static uint64_t take_by(struct jemalloc *je, uint64_t quantum)
{
    forget(je);
    set_sizes(je, quantum);
    take_extents(je);
    return je->heap->odd;
}

/* By the quantum by which most of them fit: redis brings its own jemalloc, whose sizes are multiples of 8. */
static uint64_t take_best(struct jemalloc *je)
{
    enum { USUAL = 16, LEAST = 8 };
    uint64_t odd = take_by(je, USUAL);

    if (!odd || take_by(je, LEAST) < odd)
        return je->heap->odd;
    return take_by(je, USUAL);
}

/* Takes the extents by the layout by which most of them fit. Says whether there is one. */
static int find_layout(struct jemalloc *je)
{
    uint64_t odd = 0;

    for (size_t i = 0; i < sizeof layouts / sizeof *layouts; i++) {
        je->layout = layouts + i;
        if (!find_root(je))
            continue;
        odd = take_best(je);
        if (odd <= je->slab_count + je->large_count)
            return 1;
    }
    if (odd)
        refuse(je->heap, "%llu of its records are not as those of jemalloc 5.3 or 5.2.1, so it is another version", (unsigned long long)odd);
    else
        refuse(je->heap, "%zu base blocks, the first at 0x%llx, and no tree of extents that is known (jemalloc 5.3 and 5.2.1 have one)",
               je->base_count, (unsigned long long)je->bases[0].start);
    return 0;
}

static enum finding walk_bases(struct jemalloc *je)
{
    if (!are_chained(je))
        return refuse(je->heap, "the base block at 0x%llx, or one after it, leads to none", (unsigned long long)je->bases[0].start);
    if (!find_layout(je))
        return NOT_RIGHT;
    je->heap->name = je->layout->name;
    je->heap->anchor = je->root;
    count_inside(je->heap, je->root);
    if (je->refused)
        return refuse(je->heap, "it has %s, whose heap is not known", je->refused);
    if (judge(je->heap, 4, 4) != WALKED)
        return NOT_RIGHT;
    find_hands(je);
    je->layout->take(je);
    tell_all(je);
    return judge(je->heap, 4, 4);
}

enum finding walk_jemalloc(struct other_heap *heap)
{
    struct jemalloc *je = calloc(1, sizeof *je);
    enum finding found = NOT_THERE;

    if (!je)
        fail("out of memory");
    je->heap = heap;
    find_bases(je);
    if (je->base_count)
        found = walk_bases(je);
    free(je->bases);
    free(je->slabs);
    free(je->larges);
    free(je->stacks);
    free(je->hands);
    free(je);
    return found;
}
