/* Words of a core for a walk, which counts each as a step: more than a right heap needs, and what is damaged or made to harm ends too. Memory that
 * was never touched is 0. */
#include "heaps.h"

enum { WORD = 8 };

/* Takes steps away; once none is left, no word can be read any more. */
void take_of(struct other_heap *heap, uint64_t steps)
{
    heap->steps_left -= steps < heap->steps_left ? steps : heap->steps_left;
}

/* Whether the word is known, and which it is. */
int read_word(struct other_heap *heap, uint64_t address, uint64_t *value)
{
    const struct segment *s;

    take_of(heap, 1);
    if (!heap->steps_left)
        return 0;
    if (word(heap->core, address, value))
        return 1;
    s = segment_at(heap->core, address);
    if (!s || !s->is_untouched)
        return 0;
    *value = 0;
    return 1;
}

/* Where the next bytes are that the core has, after an address that has none. */
static uint64_t after_gap(struct other_heap *heap, uint64_t at)
{
    const struct core *core = heap->core;
    size_t i = first_behind(core, at);

    if (i < core->segment_count && core->segments[i].start <= at)
        i++;
    for (; i < core->segment_count && !core->segments[i].size; i++)
        take_of(heap, 1);
    return i < core->segment_count ? (core->segments[i].start + WORD - 1) & -(uint64_t)WORD : UINT64_MAX - WORD;
}

/* Goes on from `at` to the next word below `to` that is not 0, and says whether there is one. */
int next_word(struct other_heap *heap, uint64_t *at, uint64_t to, uint64_t *value)
{
    struct core *core = heap->core;
    uint64_t next;

    for (; *at < to && heap->steps_left; *at = next) {
        next = *at + WORD;
        heap->steps_left--;
        if (!word(core, *at, value))
            next = after_gap(heap, *at);
        else if (*value)
            return heap->steps_left > 0;
        else if (*at % PAGE == 0 && after_hole(core, *at) > next)
            next = after_hole(core, *at);
    }
    return 0;
}

/* The next multiple of a power of two after one, but for those in the same hole of the core's file, where all words are 0. */
uint64_t next_multiple(struct other_heap *heap, uint64_t at, uint64_t unit)
{
    uint64_t end = after_hole(heap->core, at);

    return end > at + unit ? (end + unit - 1) & -unit : at + unit;
}

/* The next segment that can be written and has bytes, from number `next` on, or NULL. */
const struct segment *next_writable(struct other_heap *heap, size_t *next)
{
    const struct core *core = heap->core;

    while (*next < core->segment_count && heap->steps_left) {
        const struct segment *s = core->segments + (*next)++;
        take_of(heap, 1);
        if (s->is_writable && s->size)
            return s;
    }
    return NULL;
}
