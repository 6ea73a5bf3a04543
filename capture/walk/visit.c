/* All memory of malloc, by ascending address, except main arenas' own words, which lie in the C library.
 *
 * A block with a mapping of its own has less than its usable size: malloc never gives its last word, nor can a program
 * ask for it (malloc/malloc.c, sysmalloc_mmap: the next page's start after chunk and SIZE_SZ). So the address at which
 * the next mapping begins, which others hold, is not one past the block's end. */
#include "walk.h"

enum { TO_BLOCK = 16, LAST_WORD = 8, FENCE = 16 };

/* A block goes on into the next chunk's first word; so does what is free. What a thread has in hand is told as neither. */
static void visit_chunks(struct heap *heap, const struct region *r, struct visitor *v)
{
    struct chain chain = chunks_of(r);
    struct chunk chunk;

    while (next_chunk(heap->core, &chain, &chunk)) {
        uint64_t start = chunk.at + TO_BLOCK, end = chunk.at + chunk.size + LAST_WORD;
        if (chunk.size > FENCE && is_marked(heap, chunk.at))
            v->block(v, start, end - start);
        else if (chunk.size > FENCE && !is_in_hand(heap, chunk.at))
            v->unused(v, start, end);
    }
}

/* A heap of a thread begins with its own words, the first with the arena too. */
static void visit_region(struct heap *heap, const struct region *r, struct visitor *v)
{
    const struct arena *a = r->arena;

    if (a->first_heap) {
        uint64_t base = r->start & -HEAP_BYTES;
        v->unused(v, base, base + head_bytes(a));
        if (base == a->first_heap)
            v->unused(v, a->start, end_of(a));
    }
    visit_chunks(heap, r, v);
    if (r->top && r->top + TO_BLOCK < r->limit)
        v->unused(v, r->top + TO_BLOCK, r->limit);
}

static void visit_main_arenas(const struct heap *heap, struct visitor *v)
{
    for (size_t i = 0; i < heap->arena_count; i++)
        if (!heap->arenas[i].first_heap)
            v->unused(v, heap->arenas[i].start, end_of(heap->arenas + i));
}

void visit_arenas(const struct heap *heap, struct visitor *visitor)
{
    for (const struct arena *a = heap->arenas; a < heap->arenas + heap->arena_count; a++)
        visitor->unused(visitor, a->start, end_of(a));
}

void visit(struct heap *heap, struct visitor *visitor)
{
    const struct mapping *m = heap->mappings;
    size_t i = 0, k = 0;

    visit_main_arenas(heap, visitor);
    while (i < heap->region_count || k < heap->mapping_count)
        if (k == heap->mapping_count || (i < heap->region_count && heap->regions[i].start < m[k].start)) {
            visit_region(heap, heap->regions + i++, visitor);
        } else {
            visitor->block(visitor, m[k].block, m[k].end - m[k].block - LAST_WORD);
            k++;
        }
}
