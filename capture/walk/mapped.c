/* Blocks with a mapping of their own (glibc, malloc/malloc.c, sysmalloc_mmap): a chunk at a page's start whose size word says so,
 * up to the end of a page. The chunk of an aligned block is further on, and its first word says how far. The program may have made some of
 * its pages read-only, or a guard. */
#include "walk.h"

enum { IS_MMAPPED = 2, FLAGS = 7, CHUNK_HEAD = 8, TO_BLOCK = 16, LEAST_ALIGNMENT = 64 };

/* The end of the mapping, if such a chunk is this far after its start; else 0. */
static uint64_t mapped_end(struct heap *heap, uint64_t start, uint64_t behind, uint64_t limit)
{
    uint64_t head, size, room = limit - start;

    if (room < behind + TO_BLOCK || !is_word(heap->core, start + behind, behind)
        || !word(heap->core, start + behind + CHUNK_HEAD, &head))
        return 0;
    size = head & ~(uint64_t)FLAGS;
    if ((head & FLAGS) != IS_MMAPPED || size < TO_BLOCK || size > room - behind || (behind + size) % PAGE)
        return 0;
    return start + behind + size;
}

static uint64_t add_mapping(struct heap *heap, uint64_t start, uint64_t behind, uint64_t end)
{
    heap->mappings = grown(heap->mappings, heap->mapping_count, sizeof *heap->mappings);
    heap->mappings[heap->mapping_count++] = (struct mapping){ start, end, start + behind + TO_BLOCK };
    return end;
}

/* A block that is aligned to less than a page. */
static uint64_t slightly_aligned(struct heap *heap, uint64_t start, uint64_t limit)
{
    uint64_t end = 0, alignment = LEAST_ALIGNMENT;

    for (; alignment < PAGE && !end; alignment *= 2)
        end = mapped_end(heap, start, alignment - TO_BLOCK, limit);
    return end ? add_mapping(heap, start, alignment / 2 - TO_BLOCK, end) : 0;
}

/* A block that is aligned to a page or more, in the mapping that goes up to `to`. */
static uint64_t aligned(struct heap *heap, uint64_t start, uint64_t to, uint64_t limit)
{
    uint64_t end = 0, block = start;

    while (!end && to - block > PAGE) {
        block += PAGE;
        end = mapped_end(heap, start, block - TO_BLOCK - start, limit);
    }
    take_steps(heap, (block - start) / PAGE, start);
    return end ? add_mapping(heap, start, block - TO_BLOCK - start, end) : 0;
}

/* The end of the mapping that begins at the page, or 0 if none does. */
static uint64_t mapping_at(struct heap *heap, uint64_t start, uint64_t limit)
{
    uint64_t end = slightly_aligned(heap, start, limit), head;

    if (end || !is_word(heap->core, start, 0) || !word(heap->core, start + CHUNK_HEAD, &head) || (head & FLAGS) != IS_MMAPPED
        || head < TO_BLOCK || (head - IS_MMAPPED) % PAGE)
        return end;
    end = aligned(heap, start, head - IS_MMAPPED < limit - start ? start + head - IS_MMAPPED : limit, limit);
    if (end)
        return end;
    end = mapped_end(heap, start, 0, limit);
    return end ? add_mapping(heap, start, 0, end) : 0;
}

/* Looks at each page of [from, to), which has no region. Gives where the last mapping ends, if that is after `to`. */
static uint64_t find_between(struct heap *heap, uint64_t from, uint64_t to, uint64_t limit)
{
    uint64_t at = (from + PAGE - 1) & -(uint64_t)PAGE;

    while (at >= from && at < to) {
        uint64_t end = mapping_at(heap, at, limit), next = after_hole(heap->core, at);
        at = end ? end : next > at ? next : at + PAGE;
    }
    return at < from ? UINT64_MAX : at;
}

/* Looks at the dumped memory of a segment, but for regions of the heap. */
static void find_in(struct heap *heap, const struct segment *s, size_t *region)
{
    uint64_t last_end = heap->mapping_count ? heap->mappings[heap->mapping_count - 1].end : 0;
    uint64_t at = last_end > s->start ? last_end : s->start;

    while (at < s->start + s->size) {
        const struct region *r = heap->region_count ? heap->regions + *region : NULL;
        if (*region < heap->region_count && r->limit <= at) {
            ++*region;
        } else if (*region == heap->region_count || r->start >= s->reach_end) {
            at = find_between(heap, at, s->start + s->size, s->reach_end);
        } else if (r->start > at) {
            uint64_t to = r->start < s->start + s->size ? r->start : s->start + s->size;
            at = find_between(heap, at, to, r->start);
        } else {
            at = r->limit;
        }
    }
}

/* Finds all such blocks, once the regions are sorted. */
void find_mapped(struct heap *heap)
{
    size_t region = 0;

    for (size_t i = 0; i < heap->core->segment_count; i++)
        if (heap->core->segments[i].is_writable)
            find_in(heap, heap->core->segments + i, &region);
}
