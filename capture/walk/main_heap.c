/* The memory of a main arena: what sbrk gave, in one piece or more, and pieces that were mapped in its stead (glibc,
 * malloc/malloc.c, sysmalloc). */
#include "walk.h"

enum { CHUNK_HEAD = 8, PREV_INUSE = 1, FLAGS = 7, LEAST = 32, ALIGNMENT = 16, FENCES = 32 };

void add_region(struct heap *heap, struct region region)
{
    if (region.end < region.start)
        region.end = region.start;
    heap->regions = grown(heap->regions, heap->region_count, sizeof *heap->regions);
    heap->regions[heap->region_count++] = region;
}

/* Adds what the chain ran over; with fences at the end the memory goes on elsewhere. */
static void add_main(struct heap *heap, uint64_t start, const struct chain *chain, uint64_t limit, const struct arena *arena)
{
    int has_top = chain->stop != AT_FENCES;

    add_region(heap, (struct region){ .start = start, .end = chain->at, .limit = has_top ? limit : chain->at + FENCES,
                                      .top = has_top ? chain->top : 0, .arena = arena, .due = chain->due });
}

/* The chain breaks: with --partial the chunks before are known, but the last of them led nowhere. */
static void add_broken(struct heap *heap, uint64_t start, const struct chain *chain, uint64_t limit, const struct arena *arena)
{
    uint64_t end = chain->before ? chain->before : start;

    tell_break(heap, "the main heap", start, chain);
    add_region(heap, (struct region){ .start = start, .end = end, .limit = limit, .gap_end = arena->top, .top = arena->top,
                                      .arena = arena, .due = chain->due });
    heap->left_out += arena->top - end;
}

/* After fences: others took memory by sbrk, and the heap goes on after it. */
static void find_rest(struct heap *heap, uint64_t from, uint64_t limit, const struct arena *arena)
{
    struct chain chain = { .stop = AT_FENCES };

    while (chain.stop == AT_FENCES) {
        uint64_t start = find_chain(heap, from, arena->top, arena->top, &chain);
        if (start == UINT64_MAX) {
            damaged("%s: damaged: no chain of chunks from above 0x%llx reaches the top 0x%llx", heap->core->path,
                    (unsigned long long)from, (unsigned long long)arena->top);
            heap->left_out += arena->top - from;
            return;
        }
        add_main(heap, start, &chain, limit, arena);
        from = chain.at + FENCES;
    }
}

/* Where a heap of the arena's size begins that ends there. */
static uint64_t begin_of(const struct arena *arena, uint64_t limit)
{
    return arena->system_mem <= limit ? (limit - arena->system_mem + ALIGNMENT - 1) & -(uint64_t)ALIGNMENT : 0;
}

/* The chain of a heap of the arena's size that ends at the limit. */
static struct chain chain_to(struct heap *heap, const struct arena *arena, uint64_t limit)
{
    struct chain chain = { .at = begin_of(arena, limit), .top = arena->top, .limit = limit, .stop = BROKEN };

    return chain.at <= arena->top ? run_chain(heap, chain) : chain;
}

/* A heap by sbrk is as large as the arena says, and ends with the top. While the memory or the top is just being changed one
 * of both is not right yet, but the memory's own end may be. */
static void find_contiguous(struct heap *heap, const struct arena *arena, uint64_t limit, const struct segment *s)
{
    uint64_t other = s->run_end;
    struct chain chain;

    if (begin_of(arena, other) == s->run_start) {
        other = limit;
        limit = s->run_end;
    }
    chain = chain_to(heap, arena, limit);
    if (chain.stop == BROKEN && other != limit) {
        struct chain second = chain_to(heap, arena, other);
        if (second.stop != BROKEN) {
            chain = second;
            limit = other;
        }
    }
    if (chain.stop == BROKEN && chain.count) {
        add_broken(heap, begin_of(arena, limit), &chain, limit, arena);
        return;
    }
    if (chain.stop != BROKEN)
        add_main(heap, begin_of(arena, limit), &chain, limit, arena);
    if (chain.stop == BROKEN || chain.stop == AT_FENCES)
        find_rest(heap, chain.stop == BROKEN ? s->run_start : chain.at + FENCES, limit, arena);
}

/* Pieces that were mapped: any memory that is no thread's heap may have one. */
static void find_pieces(struct heap *heap, const struct arena *arena, uint64_t limit)
{
    uint64_t from = 0, start;
    struct chain chain = { 0 };
    int has_top = 0;

    while ((start = find_chain(heap, from, UINT64_MAX, arena->top, &chain)) != UINT64_MAX) {
        add_main(heap, start, &chain, limit, arena);
        has_top |= chain.stop != AT_FENCES;
        from = chain.stop == AT_FENCES ? chain.at + FENCES : limit;
    }
    if (!has_top)
        damaged("%s: damaged: no chain of chunks reaches the top 0x%llx", heap->core->path, (unsigned long long)arena->top);
}

void find_main_heap(struct heap *heap, const struct arena *arena)
{
    const struct segment *s = segment_at(heap->core, arena->top);
    uint64_t head, size, limit;

    if (arena->top == arena->top_at)
        return;                 /* the first top is the first bin: no chunk yet */
    if (!s || !s->is_writable || arena->top % ALIGNMENT || !word(heap->core, arena->top + CHUNK_HEAD, &head)) {
        damaged("%s: damaged: the top of the arena at 0x%llx is 0x%llx, which is not in the core", heap->core->path,
                (unsigned long long)arena->start, (unsigned long long)arena->top);
        return;
    }
    size = head & ~(uint64_t)FLAGS;
    /* Pages that were never touched may be missing in a core, so the memory may go on after the segment. */
    limit = (head & FLAGS) == PREV_INUSE && size >= LEAST && size <= arena->system_mem && (arena->top + size) % ALIGNMENT == 0
        ? arena->top + size : s->run_end;
    if (arena->is_contiguous)
        find_contiguous(heap, arena, limit, s);
    else
        find_pieces(heap, arena, limit);
}
