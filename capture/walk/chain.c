/* Chains of chunks (glibc, malloc/malloc.c, struct malloc_chunk): each chunk's size leads to the next one. */
#include "walk.h"

/* Low bits of a size word. PREV_INUSE says of the chunk before whether it is in use. */
enum { PREV_INUSE = 1, IS_MMAPPED = 2, NON_MAIN_ARENA = 4, FLAGS = 7 };

/* Chunks begin at multiples of 16 with the size of the one before, and are 32 bytes at least; fences have 16 bytes. */
enum { CHUNK_HEAD = 8, ALIGNMENT = 16, LEAST = 32, FENCE = 16 };

/* Two fences end a piece of the main heap, up to the end of a page, where memory goes on elsewhere (sysmalloc). What was left
 * of the top before them may be as small as a fence, or a free chunk. */
static int are_fences(struct core *core, const struct chain *chain)
{
    uint64_t at = chain->at;

    if (chain->is_thread || !is_word(core, at + FENCE + CHUNK_HEAD, FENCE | PREV_INUSE))
        return 0;
    return (at + 2 * FENCE) % PAGE == 0
        || ((at + 3 * FENCE) % PAGE == 0 && is_word(core, at + 2 * FENCE + CHUNK_HEAD, FENCE | PREV_INUSE));
}

/* Whether the chain ends here, and how. A full heap of a thread ends with a marker of size 0. */
static int is_end(struct core *core, struct chain *chain)
{
    uint64_t head;

    if (chain->at == chain->top)
        chain->stop = AT_TOP;
    else if (chain->at % ALIGNMENT || chain->at >= chain->limit || !word(core, chain->at + CHUNK_HEAD, &head))
        chain->stop = BROKEN;
    else if (chain->heap_end && chain->at + FENCE == chain->heap_end && !(head & ~(uint64_t)FLAGS))
        chain->stop = AT_MARKER;
    else if (chain->heap_end && (head & ~(uint64_t)FLAGS) == chain->heap_end - chain->at)
        chain->stop = AT_OLD_TOP;
    else if ((head & ~(uint64_t)PREV_INUSE) == FENCE && are_fences(core, chain))
        chain->stop = AT_FENCES;
    else
        return 0;
    return 1;
}

/* Goes to the next chunk, and gives it; or 0 if the chain stops. */
int next_chunk(struct core *core, struct chain *chain, struct chunk *chunk)
{
    uint64_t head = 0, size, after, at = chain->at;

    if (is_end(core, chain))
        return 0;
    chain->stop = BROKEN;
    word(core, at + CHUNK_HEAD, &head);
    if (chain->due.size && at == chain->due.at)
        head = chain->due.size | PREV_INUSE;
    size = head & ~(uint64_t)FLAGS;
    if (head & IS_MMAPPED || (head & NON_MAIN_ARENA && !chain->is_thread) || size % ALIGNMENT
        || size < (chain->heap_end ? FENCE : LEAST))
        return 0;
    if (at < chain->top && size > chain->top - at) {
        chain->stop = OVER_TOP;
        return 0;
    }
    if (size > chain->limit - at || !word(core, at + size + CHUNK_HEAD, &after))
        return 0;
    *chunk = (struct chunk){ at, size, at + size == chain->due.at || (after & PREV_INUSE && at != chain->due.at) };
    chain->before = at;
    chain->at = at + size;
    chain->count++;
    return 1;
}

int ends_well(const struct chain *chain)
{
    return chain->stop != BROKEN && chain->stop != OVER_TOP;
}

/* The chain as it stops; or, if `looks`, with what is surely due on its way. */
static struct chain run(struct heap *heap, struct chain chain, int looks)
{
    struct chunk chunk;
    uint64_t before = chain.count;

    while (next_chunk(heap->core, &chain, &chunk))
        if (looks && !chain.due.at)
            chain.due = due_at(heap, &chain);
    take_steps(heap, chain.count - before, chain.at);
    return chain;
}

struct chain run_as_is(struct heap *heap, struct chain chain)
{
    return run(heap, chain, 0);
}

/* The chain that goes on over the top's beginning, if a thread has that in hand: malloc that cuts a chunk from the top, free
 * that joins one to it, or realloc whose block just grew into it, and is in use up to where the top will be. */
static struct chain over_top(struct heap *heap, struct chain chain)
{
    uint64_t head = 0, size;

    word(heap->core, chain.at + CHUNK_HEAD, &head);
    size = head & ~(uint64_t)FLAGS;
    if (!has_in_hand(heap, chain.at, chain.top))
        chain.stop = BROKEN;
    if (chain.stop == BROKEN || size == chain.limit - chain.at)
        return chain;
    chain.stop = BROKEN;
    if (size > chain.limit - chain.at || chain.limit - chain.at - size < LEAST)
        return chain;
    chain.top = chain.due.at = chain.at + size;
    chain.due.size = 0;
    return run_as_is(heap, chain);
}

/* The chain as it stops, with what a thread is about to write if it would not end well without. */
struct chain run_chain(struct heap *heap, struct chain chain)
{
    struct chain end = run(heap, chain, heap->core->thread_count != 0), other;

    if (!ends_well(&end) && end.due.at)
        end = run_as_is(heap, chain);
    if (ends_well(&end))
        return end;
    other = mended(heap, &chain, &end);
    if (ends_well(&other))
        return other;
    return end.stop == OVER_TOP ? over_top(heap, end) : end;
}

/* Tries a chain of a main arena from each page start of [from, to). */
static uint64_t find_chain_in(struct heap *heap, uint64_t from, uint64_t to, struct chain chain, struct chain *found)
{
    for (uint64_t at = (from + PAGE - 1) & -(uint64_t)PAGE; at >= from && at < to; at += PAGE) {
        uint64_t head;
        at = after_hole(heap->core, at);
        take_steps(heap, 1, at);
        if (at >= to || !word(heap->core, at + CHUNK_HEAD, &head) || (head & FLAGS) != PREV_INUSE || head < LEAST)
            continue;
        chain.at = at;
        *found = run_chain(heap, chain);
        if (found->count && found->stop != BROKEN)
            return at;
    }
    return UINT64_MAX;
}

/* The first page start of [from, to) from which a chain of a main arena ends well, or UINT64_MAX. */
uint64_t find_chain(struct heap *heap, uint64_t from, uint64_t to, uint64_t top, struct chain *found)
{
    uint64_t start = UINT64_MAX;

    for (size_t i = first_behind(heap->core, from); i < heap->core->segment_count && start == UINT64_MAX; i++) {
        const struct segment *s = heap->core->segments + i;
        uint64_t low = s->start < from ? from : s->start, high = s->start + s->size < to ? s->start + s->size : to;
        if (s->is_writable && low < high)
            start = find_chain_in(heap, low, high, (struct chain){ .top = top, .limit = s->run_end }, found);
    }
    return start;
}

/* Refuses a broken chain, or with --partial says so. */
void tell_break(struct heap *heap, const char *what, uint64_t start, const struct chain *chain)
{
    uint64_t head = 0;
    int is_there = word(heap->core, chain->at + CHUNK_HEAD, &head);

    damaged("%s: damaged: %s from 0x%llx breaks after %llu chunks at 0x%llx (%s 0x%llx); the chunk before is at 0x%llx",
            heap->core->path, what, (unsigned long long)start, (unsigned long long)chain->count, (unsigned long long)chain->at,
            is_there ? "its size word is" : "not in the core:", (unsigned long long)head, (unsigned long long)chain->before);
}
