/* Arenas, found without symbols (glibc, malloc/malloc.c, struct malloc_state). An arena has 127 list heads, its bins: an empty
 * one leads to itself, a filled one to chunks that lead back. */
#include <stdlib.h>

#include "walk.h"

/* NBINS - 1; and how many may be out of order, since a core can be taken while a thread links or unlinks chunks. */
enum { BINS = 127, MAY_BE_ODD = 7 };

/* Offsets in the arena from its word `top`. bin_at() takes a bin for a chunk, whose fd and bk are at 16 and 24: so the first
 * bin's chunk begins at `top` itself. */
enum { BIN_BYTES = 16, FD = 16, BK = 24, TO_NEXT = 2064, TO_SYSTEM_MEM = 2088, TO_END = 2104 };

/* From an arena's start to `top`: glibc 2.27 on, with ten fast bins; 2.26, without the word have_fastchunks; and without
 * fast bins. */
static const uint64_t layouts[] = { 96, 88, 8 };
enum { LAYOUTS = sizeof layouts / sizeof *layouts };

/* In the second four bytes of an arena, its flags. */
enum { FLAGS_SHIFT = 32, NONCONTIGUOUS_BIT = 2 };

/* From a heap's start to the first chunk or arena: heap_info up to glibc 2.34, and from 2.35 on. */
enum { OLD_HEAD = 32, HEAD = 48 };

/* Whether one of the bin's two words leads to a place that leads back. */
static int leads_back(struct core *core, uint64_t bin)
{
    uint64_t first, last;

    if (!word(core, bin + FD, &first) || !word(core, bin + BK, &last))
        return 0;
    return (first % 8 == 0 && is_word(core, first + BK, bin)) || (last % 8 == 0 && is_word(core, last + FD, bin));
}

/* Whether 127 bins begin here, and no more: the last is known to lead to itself. */
static int has_bins(struct core *core, uint64_t top_at)
{
    int odd = 0;

    if (leads_back(core, top_at + BIN_BYTES * BINS))
        return 0;
    for (uint64_t i = BINS; i-- && odd <= MAY_BE_ODD;)
        odd += !leads_back(core, top_at + BIN_BYTES * i);
    return odd <= MAY_BE_ODD;
}

/* Finds arenas by their last bin, which holds no chunk: its two words are its own address. */
static void find_bins(struct heap *heap, const struct segment *s)
{
    enum { TO_LAST_BIN = BIN_BYTES * (BINS - 1) };
    uint64_t at = (s->start + 7) & -(uint64_t)8, value;

    for (; at - s->start < s->size && word(heap->core, at, &value); at += 8) {
        uint64_t bin = at - FD;
        if (at % PAGE == 0 && !value && after_hole(heap->core, at) > at + PAGE) {
            at = after_hole(heap->core, at) - 8;
            continue;
        }
        if (value != bin || bin < TO_LAST_BIN || !is_word(heap->core, bin + BK, bin) || !has_bins(heap->core, bin - TO_LAST_BIN))
            continue;
        heap->arenas = grown(heap->arenas, heap->arena_count, sizeof *heap->arenas);
        heap->arenas[heap->arena_count++] = (struct arena){ .top_at = bin - TO_LAST_BIN };
    }
}

/* The arena whose `top` is there, or NULL. */
static struct arena *by_top(const struct heap *heap, uint64_t top_at)
{
    size_t low = 0, high = heap->arena_count;

    while (low < high) {
        size_t middle = low + (high - low) / 2;
        if (heap->arenas[middle].top_at < top_at)
            low = middle + 1;
        else
            high = middle;
    }
    return low < heap->arena_count && heap->arenas[low].top_at == top_at ? heap->arenas + low : NULL;
}

const struct arena *arena_at(const struct heap *heap, uint64_t start)
{
    return heap->arena_count ? by_top(heap, start + (heap->arenas[0].top_at - heap->arenas[0].start)) : NULL;
}

/* The arena that tells one process from another: the main arena of the C library that was mapped first, which is at the
 * highest address. */
const struct arena *main_arena(const struct heap *heap)
{
    size_t i = heap->arena_count - 1;

    while (i && heap->arenas[i].first_heap)
        i--;
    return heap->arenas + i;
}

/* After the arena's own words. */
uint64_t end_of(const struct arena *arena)
{
    return arena->top_at + TO_END;
}

/* How many arenas lead by `next` to an arena, if this is the layout. */
static size_t ring_of(const struct heap *heap, uint64_t layout)
{
    size_t count = 0;
    uint64_t next;

    for (size_t i = 0; i < heap->arena_count; i++)
        count += word(heap->core, heap->arenas[i].top_at + TO_NEXT, &next) && by_top(heap, next + layout);
    return count;
}

/* Whether it is just being made, and leads nowhere yet: a main arena leads somewhere from the start. */
static int is_begun(const struct heap *heap, const struct arena *a)
{
    return is_word(heap->core, a->top_at + TO_NEXT, 0);
}

static size_t begun_ones(const struct heap *heap)
{
    size_t count = 0;

    for (size_t i = 0; i < heap->arena_count; i++)
        count += is_begun(heap, heap->arenas + i);
    return count;
}

/* While a thread's arena gets its bins one after another, some of them look like an arena that begins before it. */
static void drop_begun_ones(struct heap *heap)
{
    size_t left = 0;

    for (size_t i = 0; i < heap->arena_count; i++)
        if (heap->arenas[i].first_heap || !is_begun(heap, heap->arenas + i))
            heap->arenas[left++] = heap->arenas[i];
    heap->arena_count = left;
}

/* The layout: arenas are linked as a ring by their starts. */
static uint64_t find_layout(const struct heap *heap)
{
    size_t best = 0, most = 0;

    for (size_t k = 0; k < LAYOUTS; k++) {
        size_t count = ring_of(heap, layouts[k]);
        if (count > most)
            best = k, most = count;
    }
    if (!most)
        fail("%s: damaged: the arena whose top stands at 0x%llx leads to no other arena and not to itself", heap->core->path,
             (unsigned long long)heap->arenas[0].top_at);
    if (most + begun_ones(heap) < heap->arena_count)
        damaged("%s: damaged: of %zu arenas %zu lead to no other", heap->core->path, heap->arena_count, heap->arena_count - most);
    return layouts[best];
}

/* Reads an arena. A thread's arena lies in its first heap, which begins with the arena's address. */
static void read_arena(struct heap *heap, struct arena *a, uint64_t layout)
{
    uint64_t flags = 0, first_heap;

    a->start = a->top_at - layout;
    first_heap = a->start & -HEAP_BYTES;
    if (!segment_at(heap->core, a->start) && is_begun(heap, a))
        return;
    if (!word(heap->core, a->start, &flags) || !word(heap->core, a->top_at, &a->top)
        || !word(heap->core, a->top_at + TO_SYSTEM_MEM, &a->system_mem))
        fail("%s: the arena at 0x%llx is cut off", heap->core->path, (unsigned long long)a->start);
    a->is_contiguous = !(flags >> FLAGS_SHIFT & NONCONTIGUOUS_BIT);
    if (is_word(heap->core, first_heap, a->start) && (a->start - first_heap == OLD_HEAD || a->start - first_heap == HEAD))
        a->first_heap = first_heap;
}

static void find_all_bins(struct heap *heap)
{
    for (size_t i = 0; i < heap->core->segment_count; i++)
        if (heap->core->segments[i].is_writable)
            find_bins(heap, heap->core->segments + i);
}

void find_arenas(struct heap *heap)
{
    uint64_t layout;

    find_all_bins(heap);
    if (!heap->arena_count && is_malloc_unused(heap))
        return;
    if (!heap->arena_count || heap->core->own_malloc) {
        heap->wanting = "arena of glibc's malloc";
        return;
    }
    layout = find_layout(heap);
    heap->has_fast_bins = layout != layouts[LAYOUTS - 1];
    for (size_t i = 0; i < heap->arena_count; i++)
        read_arena(heap, heap->arenas + i, layout);
    drop_begun_ones(heap);
}
