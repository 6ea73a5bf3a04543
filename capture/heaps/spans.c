/* Lists of blocks and of memory that is not in use. */
#include <stdlib.h>

#include "heaps.h"

static void add(struct other_heap *heap, struct spans *spans, struct span span)
{
    if (!heap->spans_left) {
        heap->steps_left = 0;
        return;
    }
    heap->spans_left--;
    spans->list = grown(spans->list, spans->count, sizeof *spans->list);
    spans->list[spans->count++] = span;
}

void add_block(struct other_heap *heap, uint64_t start, uint64_t size, uint64_t room)
{
    add(heap, &heap->blocks, (struct span){ start, size, room });
}

void add_unused(struct other_heap *heap, uint64_t start, uint64_t end)
{
    if (start < end)
        add(heap, &heap->unused, (struct span){ start, end - start, end - start });
}

/* Memory that may be a block that a thread has in hand: it is told neither as a block nor as free, so its words count. */
void add_neither(struct other_heap *heap, uint64_t start, uint64_t end)
{
    if (start < end)
        add(heap, &heap->blocks, (struct span){ start, 0, end - start });
}

/* A bit for each of so many places for blocks, or NULL if the core can't have them. */
uint8_t *bits_for(struct other_heap *heap, uint64_t count)
{
    uint8_t *bits;

    if (count > heap->places_left) {
        heap->steps_left = 0;
        return NULL;
    }
    heap->places_left -= count;
    bits = calloc(count / 8 + 1, 1);
    if (!bits)
        fail("out of memory");
    return bits;
}

/* The first that begins before another, sorted by start, has ended; or NULL. */
const struct span *overlap_of(const struct spans *spans)
{
    for (size_t i = 1; i < spans->count; i++)
        if (spans->list[i - 1].room > spans->list[i].start - spans->list[i - 1].start)
            return spans->list + i;
    return NULL;
}

/* Adds the words that lie in [start, end). */
static void add_words(struct spans *to, uint64_t start, uint64_t end)
{
    enum { WORD = 8 };
    uint64_t from = (start + WORD - 1) & -(uint64_t)WORD, size = (end & -(uint64_t)WORD) - from;

    if (from > (end & -(uint64_t)WORD) || !size)
        return;
    to->list = grown(to->list, to->count, sizeof *to->list);
    to->list[to->count++] = (struct span){ from, size, size };
}

/* What of [start, end) is in none of the blocks, from number `next` on, of which earlier ones end before it. */
static void put_rest(struct spans *to, const struct spans *blocks, size_t next, uint64_t start, uint64_t end)
{
    for (; start < end; next++) {
        const struct span *block = next < blocks->count ? blocks->list + next : NULL;
        uint64_t stop = block && block->start < end ? block->start : end;
        add_words(to, start, stop);
        if (stop == end)
            return;
        if (start < block->start + block->room)
            start = block->start + block->room;
    }
}

/* Joins what is not in use, and takes the blocks out of it. Both are sorted by start. */
void cut_out(struct spans *unused, const struct spans *blocks)
{
    struct spans left = { 0 };
    size_t next = 0;

    for (size_t i = 0; i < unused->count;) {
        uint64_t start = unused->list[i].start, end = start;
        for (; i < unused->count && unused->list[i].start <= end; i++)
            if (end < unused->list[i].start + unused->list[i].size)
                end = unused->list[i].start + unused->list[i].size;
        while (next < blocks->count && blocks->list[next].start + blocks->list[next].room <= start)
            next++;
        put_rest(&left, blocks, next, start, end);
    }
    free(unused->list);
    *unused = left;
}
