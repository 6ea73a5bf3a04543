/* Heaps of threads' arenas (glibc, malloc/arena.c, heap_info): they begin at multiples of HEAP_MAX_SIZE with the address of
 * their arena. */
#include "walk.h"

enum { TO_SIZE = 16, ALIGNMENT = 16, CHUNK_HEAD = 8 };

/* Up to the first chunk, or in the first heap up to the arena. */
uint64_t head_bytes(const struct arena *arena)
{
    return arena->start - arena->first_heap;
}

static uint64_t aligned(uint64_t address, uint64_t alignment)
{
    return (address + alignment - 1) & -alignment;
}

/* Whether no word was written from here to there yet. */
static int is_fresh(struct heap *heap, uint64_t from, uint64_t to)
{
    uint64_t at = from, value = 0;

    while (at < to && word(heap->core, at, &value) && !value)
        at += sizeof value;
    return at == to;
}

/* Whether the heap has no chunk yet: its arena is just being made, and its first top is the first bin; or the arena takes
 * this heap next, and its top is still in the one before. */
static int is_begun(struct heap *heap, const struct arena *arena, uint64_t top, uint64_t start, uint64_t limit)
{
    return arena->top == arena->top_at || (!top && is_word(heap->core, start + CHUNK_HEAD, 0) && is_fresh(heap, start, limit));
}

/* What is known of the heap's chunks, if the chain of them breaks. */
static void break_off(struct heap *heap, struct region *region, const struct chain *chain)
{
    tell_break(heap, "a thread's heap", region->start, chain);
    region->end = chain->before ? chain->before : region->start;
    region->gap_end = region->top ? region->top : region->limit;
    heap->left_out += region->gap_end - region->end;
}

/* Where a heap that the top is not in ends. */
static void end_full(struct region *region, const struct chain *chain)
{
    if (chain->stop == AT_MARKER)
        region->end = chain->before; /* the last chunk before the marker is a fence, or what was left of the top */
    if (chain->stop == AT_OLD_TOP)
        region->top = chain->at;
}

static void add_heap(struct heap *heap, uint64_t base, const struct arena *arena)
{
    uint64_t size, start = base == arena->first_heap ? aligned(end_of(arena), ALIGNMENT) : base + head_bytes(arena);
    uint64_t top = (arena->top & -HEAP_BYTES) == base ? arena->top : 0;

    if (!word(heap->core, base + TO_SIZE, &size) || size % PAGE || size > HEAP_BYTES || size < start - base || top > base + size) {
        damaged("%s: damaged: the heap at 0x%llx has no right size", heap->core->path, (unsigned long long)base);
        return;
    }
    struct region region = { .start = start, .end = start, .top = start, .limit = base + size, .arena = arena };
    if (!is_begun(heap, arena, top, start, base + size)) {
        struct chain chain = run_chain(heap, (struct chain){ .at = start, .top = top, .limit = base + size, .is_thread = 1,
                                                             .heap_end = top ? 0 : base + size });
        region.end = chain.at;
        region.top = chain.top;
        region.due = chain.due;
        end_full(&region, &chain);
        if (chain.stop == BROKEN)
            break_off(heap, &region, &chain);
    }
    add_region(heap, region);
}

static void find_heaps_in(struct heap *heap, const struct segment *s)
{
    for (uint64_t base = aligned(s->start, HEAP_BYTES); base >= s->start && base - s->start < s->size; base += HEAP_BYTES) {
        uint64_t start;
        int is_hole = after_hole(heap->core, base) != base;
        const struct arena *arena = !is_hole && word(heap->core, base, &start) ? arena_at(heap, start) : NULL;
        if (arena && arena->first_heap)
            add_heap(heap, base, arena);
        if (base > UINT64_MAX - HEAP_BYTES)
            return;
    }
}

void find_thread_heaps(struct heap *heap)
{
    for (size_t i = 0; i < heap->core->segment_count; i++)
        if (heap->core->segments[i].is_writable)
            find_heaps_in(heap, heap->core->segments + i);
}
