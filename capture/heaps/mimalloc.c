/* The heap of mimalloc 2.0 and 2.1, without symbols (include/mimalloc-types.h or mimalloc/types.h, src/{segment,page,alloc,heap,init}.c).
 *
 * A thread's first heap and the thread's own data lead to each other, and the heap has the sizes of its queues. Segments begin at multiples of 32 MiB
 * with a cookie, which is the address and the cookie of the main heap. Heaps count their pages, threads their segments, segments their pages, and
 * pages their blocks. */
#include <stdlib.h>

#include "mimalloc.h"

/* Offsets in mi_tld_t. */
enum { TO_HEAP = 16, TO_SEGMENT_COUNT = 896 };

/* The size of a heap's first queue, and where it is in mi_heap_t. */
enum { FIRST_SIZE = 8, TO_FIRST_SIZE = TO_QUEUES + QUEUE_BYTES + 16 };

static struct mi_heap *mi_heap_at(const struct mimalloc *mi, uint64_t start)
{
    return mi->heap_count ? bsearch(&start, mi->heaps, mi->heap_count, sizeof *mi->heaps, by_start) : NULL;
}

/* Whether a heap's queues begin here, whose block sizes grow by 8. */
static int has_queues(struct mimalloc *mi, uint64_t start)
{
    uint64_t size;

    for (uint64_t i = 1; i <= 8; i++)
        if (!read_word(mi->heap, start + TO_QUEUES + QUEUE_BYTES * i + 16, &size) || size != 8 * i)
            return 0;
    return 1;
}

static void add_heap(struct mimalloc *mi, uint64_t start, uint64_t thread_data)
{
    struct mi_heap heap = { .start = start };

    if (!read_word(mi->heap, start + TO_THREAD, &heap.thread) || !read_word(mi->heap, start + TO_COOKIE, &heap.cookie)
        || !read_word(mi->heap, start + TO_PAGE_COUNT, &heap.counted)
        || (thread_data && !read_word(mi->heap, thread_data + TO_SEGMENT_COUNT, &heap.segments)))
        return;
    mi->heaps = grown(mi->heaps, mi->heap_count, sizeof *mi->heaps);
    mi->heaps[mi->heap_count++] = heap;
}

/* The heap, which may be a further one of a thread (mi_heap_new), or NULL. */
struct mi_heap *known_heap(struct mimalloc *mi, uint64_t start)
{
    struct mi_heap *found = mi_heap_at(mi, start);
    size_t count = mi->heap_count;

    if (found || start % 8 || !has_queues(mi, start))
        return found;
    add_heap(mi, start, 0);
    take_of(mi->heap, 16 * mi->heap_count);
    if (mi->heap_count > count)
        qsort(mi->heaps, mi->heap_count, sizeof *mi->heaps, by_start);
    return mi_heap_at(mi, start);
}

/* Adds the first heap of a thread, if one begins here. */
static void try_heap(struct mimalloc *mi, uint64_t start)
{
    uint64_t data, back;

    if (has_queues(mi, start) && read_word(mi->heap, start, &data) && data % 8 == 0 && data >> 47 == 0
        && read_word(mi->heap, data + TO_HEAP, &back) && back == start)
        add_heap(mi, start, data);
}

/* Finds the first heap of each thread, by the size of its first queue: few words are 8. Most words of another allocator's heap lead somewhere, so to ask
 * each whether it leads to a thread's data would read all over the core. */
static void find_heaps(struct mimalloc *mi)
{
    const struct segment *s;
    size_t next = 0;
    uint64_t size;

    while ((s = next_writable(mi->heap, &next)))
        for (uint64_t at = (s->start + 7) & -(uint64_t)8; next_word(mi->heap, &at, s->start + s->size, &size); at += 8)
            if (size == FIRST_SIZE)
                try_heap(mi, at - TO_FIRST_SIZE);
}

/* Whether each heap has as many pages as it counts, and each thread as many segments. A thread that has ended counts none, and its number may be another's
 * by now. */
static void check_counts(struct mimalloc *mi)
{
    for (size_t i = 0; i < mi->heap_count; i++) {
        const struct mi_heap *h = mi->heaps + i;
        uint64_t counted = 0, found = 0;
        if (h->pages != h->counted)
            tell_odd(mi->heap, "the heap at 0x%llx has %llu pages, and counts %llu", (unsigned long long)h->start, (unsigned long long)h->pages,
                     (unsigned long long)h->counted);
        for (size_t k = 0; k < mi->heap_count; k++)
            counted += mi->heaps[k].thread == h->thread ? mi->heaps[k].segments : 0;
        for (size_t k = 0; k < mi->segment_count; k++)
            found += mi->segments[k].thread == h->thread;
        take_of(mi->heap, mi->heap_count + mi->segment_count);
        if (found != counted)
            tell_odd(mi->heap, "the thread 0x%llx has %llu segments, and counts %llu", (unsigned long long)h->thread, (unsigned long long)found,
                     (unsigned long long)counted);
        if (!mi->heap->steps_left)
            return;
    }
}

/* The blocks of a page; what no list has is in use. A block that has a page of its own has all of it. */
static void tell_page(struct mimalloc *mi, const struct mi_page *p)
{
    uint64_t at = p->start, size = p->count == 1 && p->start + 2 * p->size > p->limit ? p->limit - p->start : p->size;

    for (uint64_t i = 0; i < p->count && mi->heap->steps_left; i++, at += size)
        if (p->free[i / 8] >> i % 8 & 1)
            add_unused(mi->heap, at, at + size);
        else
            add_block(mi->heap, at, size, size);
    add_unused(mi->heap, at, p->limit);
}

static enum finding walk_heaps(struct mimalloc *mi)
{
    if (!find_segments(mi))
        return mi->segment_count ? refuse(mi->heap, "its segments have other cookies than its heaps: no mimalloc that is known (2.0 and 2.1 are)") : NOT_THERE;
    for (size_t i = 0; i < mi->heap_count; i++)
        if (mi->heaps[i].cookie == mi->cookie)
            mi->heap->anchor = mi->heaps[i].start;
    count_inside(mi->heap, mi->heap->anchor);
    find_layout(mi);
    take_segments(mi);
    take_lists(mi);
    check_counts(mi);
    if (judge(mi->heap, 4, 2) != WALKED)
        return NOT_RIGHT;
    for (size_t i = 0; i < mi->page_count; i++)
        tell_page(mi, mi->pages + i);
    return judge(mi->heap, 4, 2);
}

enum finding walk_mimalloc(struct other_heap *heap)
{
    struct mimalloc mi = { .heap = heap };
    enum finding found;

    find_heaps(&mi);
    found = walk_heaps(&mi);
    for (size_t i = 0; i < mi.page_count; i++)
        free(mi.pages[i].free);
    free(mi.pages);
    free(mi.segments);
    free(mi.heaps);
    return found;
}
