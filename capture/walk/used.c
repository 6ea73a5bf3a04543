/* Which chunks are in use: a bit for each, set by the next chunk's size word, and cleared if a list of free chunks has
 * it. It is found by the place of the chunk's size word in the file, so that memory that was never touched takes none. */
#include <stdlib.h>

#include "walk.h"

enum { CHUNK_HEAD = 8, PREV_INUSE = 1, FLAGS = 7, PIECE = 16, BYTE_OF_PIECES = 8 * PIECE };

/* The chunks of a region, all well known. */
struct chain chunks_of(const struct region *region)
{
    return (struct chain){ .at = region->start, .top = region->end, .limit = region->limit, .due = region->due,
                           .is_thread = region->arena->first_heap != 0 };
}

/* The byte that has the chunk's bit, and the bit; or NULL if the core doesn't have its size word. */
static uint8_t *bits_of(struct heap *heap, uint64_t at, uint8_t *bit)
{
    uint64_t place;

    if (!place_of(heap->core, at + CHUNK_HEAD, &place))
        return NULL;
    *bit = 1 << place / PIECE % 8;
    return heap->used + place / BYTE_OF_PIECES;
}

/* Whether the chunk there, which is known, is in use. */
int is_marked(struct heap *heap, uint64_t at)
{
    uint8_t bit, *bits = bits_of(heap, at, &bit);

    return bits && *bits & bit;
}

static void mark(struct heap *heap, uint64_t at, int used)
{
    uint8_t bit, *bits = bits_of(heap, at, &bit);

    if (bits)
        *bits = used ? *bits | bit : *bits & ~bit;
}

/* Whether a chunk that the next one says is free has its size after it too, or is in a list. */
static int is_whole(struct heap *heap, const struct region *r, const struct chunk *chunk)
{
    return chunk->at == r->due.at || is_word(heap->core, chunk->at + chunk->size, chunk->size) || is_listed(heap->core, chunk->at);
}

/* Whether a thread has it in hand: the next chunk's size word says that it is free, or is yet to be written, and nothing
 * else says so. */
static int is_unsettled(struct heap *heap, const struct region *r, const struct chunk *chunk)
{
    uint64_t next = 0;

    if (chunk->at + chunk->size != r->due.at)
        return !chunk->is_used && !is_whole(heap, r, chunk);
    word(heap->core, r->due.at + CHUNK_HEAD, &next);
    return !(next & PREV_INUSE);
}

/* Whether registers show that a thread is at work on the chunk, by where it begins, where it ends or where the free one
 * before it begins. If there are more such chunks than threads can have in hand, the heap is damaged. */
static int is_held(struct heap *heap, const struct chunk *chunk, uint64_t before)
{
    uint64_t end = chunk->at + chunk->size;

    return heap->odd_chunks.count <= 2 * heap->core->thread_count
        && (has_in_hand(heap, chunk->at, chunk->at) || has_in_hand(heap, end, end) || has_in_hand(heap, before, before));
}

/* Sorts out a chunk that is unsettled: if a thread has it, it is known as one in hand, also if it is a block that realloc
 * makes larger or smaller, since its size word and the next one don't fit each other yet; else it is a block. Gives whether it
 * is a block. */
static int settle(struct heap *heap, const struct chunk *chunk)
{
    uint64_t size = 0;

    if (!chunk->is_used && !heap->odd_chunks.count++)
        heap->odd_chunks.first = chunk->at;
    word(heap->core, chunk->at, &size);
    if (!is_held(heap, chunk, chunk->at - size))
        return 1;
    heap->in_hand = grown(heap->in_hand, heap->in_hand_count, sizeof *heap->in_hand);
    heap->in_hand[heap->in_hand_count++] = chunk->at;
    return 0;
}

/* Whether the chunk was found to be in hand. */
int is_in_hand(const struct heap *heap, uint64_t at)
{
    return heap->in_hand_count && bsearch(&at, heap->in_hand, heap->in_hand_count, sizeof at, by_start);
}

static void note(struct heap *heap, struct region *r, const struct chunk *chunk)
{
    if (is_unsettled(heap, r, chunk) ? settle(heap, chunk) : chunk->is_used) {
        mark(heap, chunk->at, 1);
        if (may_be_cache(chunk->size)) {
            heap->maybe_caches = grown(heap->maybe_caches, heap->maybe_cache_count, sizeof *heap->maybe_caches);
            heap->maybe_caches[heap->maybe_cache_count++] = *chunk;
        }
    }
}

static void find_used_in(struct heap *heap, struct region *r)
{
    struct chain chain = chunks_of(r);
    struct chunk chunk;

    while (next_chunk(heap->core, &chain, &chunk))
        note(heap, r, &chunk);
}

/* Sorts the regions, and reads which of their chunks are in use. */
void find_used(struct heap *heap)
{
    heap->used = calloc(heap->core->file.size / BYTE_OF_PIECES + 1, 1);
    if (!heap->used)
        fail("out of memory");
    if (heap->region_count)
        qsort(heap->regions, heap->region_count, sizeof *heap->regions, by_start);
    for (size_t i = 0; i < heap->region_count; i++) {
        struct region *r = heap->regions + i;
        if ((i && r->start < r[-1].limit) || r->limit < r->end)
            fail("%s: damaged: parts of the heap overlap at 0x%llx", heap->core->path, (unsigned long long)r->start);
        find_used_in(heap, r);
    }
}

static const struct region *region_of(const struct heap *heap, uint64_t at)
{
    size_t low = 0, high = heap->region_count;

    while (low < high) {
        size_t middle = low + (high - low) / 2;
        if (heap->regions[middle].start <= at)
            low = middle + 1;
        else
            high = middle;
    }
    if (!low || (at >= heap->regions[low - 1].end && at >= heap->regions[low - 1].gap_end))
        return NULL;
    return heap->regions + low - 1;
}

/* Whether a chunk in use begins there. If no chunk is known there, one may: a list that leads there is not wrong. */
int is_used(struct heap *heap, uint64_t at)
{
    const struct region *r = at % PIECE ? NULL : region_of(heap, at);

    return r && (at >= r->end || is_marked(heap, at));
}

/* Sets it of a chunk. */
void set_used(struct heap *heap, uint64_t at, int used)
{
    if (at < region_of(heap, at)->end)
        mark(heap, at, used);
}

/* Whether it is the first chunk of a region. */
int begins_region(const struct heap *heap, uint64_t at)
{
    const struct region *r = region_of(heap, at);

    return r && r->start == at;
}

uint64_t size_at(struct heap *heap, uint64_t at)
{
    uint64_t head = 0;

    word(heap->core, at + CHUNK_HEAD, &head);
    return head & ~(uint64_t)FLAGS;
}
