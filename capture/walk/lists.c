/* Fast bins: free chunks that count as in use by the next chunk's bit (glibc, malloc/malloc.c, fastbinsY). */
#include "walk.h"

enum { FAST_BINS = 10, LINK = 16, LEAST = 32, STEP = 16, PAGE_BITS = 12 };

/* What the link at `place` says. From glibc 2.32 on it is encoded by its place (PROTECT_PTR). */
uint64_t revealed(uint64_t place, uint64_t link, int is_safe)
{
    return is_safe ? place >> PAGE_BITS ^ link : link;
}

/* Takes the chunks of the list as free, and gives how many; the list ends where no chunk in use of this size is. One that
 * leads in a circle where no chunk is known ends with the steps. */
static uint64_t take(struct heap *heap, uint64_t at, uint64_t size, int is_safe, int *ends_well)
{
    uint64_t count = 0, link;

    for (; at && is_used(heap, at) && size_at(heap, at) == size && word(heap->core, at + LINK, &link); count++) {
        take_steps(heap, 1, at);
        set_used(heap, at, 0);
        at = revealed(at + LINK, link, is_safe);
    }
    *ends_well = !at;
    return count;
}

static void put_back(struct heap *heap, uint64_t at, uint64_t count, int is_safe)
{
    uint64_t link;

    for (; count-- && word(heap->core, at + LINK, &link); at = revealed(at + LINK, link, is_safe))
        set_used(heap, at, 1);
}

/* Takes a list, with links of the newer kind or of the older. Gives whether it ends well; else nothing is changed. */
static int take_list(struct heap *heap, uint64_t first, uint64_t size, int is_safe)
{
    int ends_well;
    uint64_t count = take(heap, first, size, is_safe, &ends_well);

    if (!ends_well)
        put_back(heap, first, count, is_safe);
    return ends_well;
}

static void take_fast_bins_of(struct heap *heap, const struct arena *arena)
{
    for (uint64_t k = 0; k < FAST_BINS; k++) {
        uint64_t place = arena->top_at - 8 * FAST_BINS + 8 * k, first, size = LEAST + STEP * k;
        if (!word(heap->core, place, &first) || !first)
            continue;
        if (!take_list(heap, first, size, 1) && !take_list(heap, first, size, 0) && !heap->odd_lists.count++)
            heap->odd_lists.first = place;
    }
}

void take_fast_bins(struct heap *heap)
{
    for (size_t i = 0; heap->has_fast_bins && i < heap->arena_count; i++)
        take_fast_bins_of(heap, heap->arenas + i);
}
