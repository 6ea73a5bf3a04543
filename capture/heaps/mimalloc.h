/* What the files of the walk of mimalloc 2.0 and 2.1 share (include/mimalloc-types.h, of 2.1 include/mimalloc/types.h; 64 bits, as it is
 * released: MI_SECURE 0, MI_DEBUG 0). */
#ifndef LEAK_MIMALLOC_H
#define LEAK_MIMALLOC_H

#include "heaps.h"

enum { SLICE = 64 << 10, SEGMENT = 32 << 20, SLICES = SEGMENT / SLICE, PAGE_BYTES = 80, SLICES_AT = 264 };

/* Offsets in mi_heap_t. */
enum { TO_QUEUES = 1040, QUEUE_BYTES = 24, TO_DELAYED = 2840, TO_THREAD = 2848, TO_COOKIE = 2864, TO_PAGE_COUNT = 3024 };

/* What differs between versions: where in its slices a page begins that has blocks of this size. */
struct mi_layout {
    const char *name;
    uint64_t (*first_offset)(uint64_t size);
};

/* mi_heap_t */
struct mi_heap {
    uint64_t start, thread, cookie;
    uint64_t segments;          /* that its thread counts, if it is the thread's first */
    uint64_t pages, counted;    /* that were found, and that it counts */
};

/* mi_segment_t */
struct mi_segment {
    uint64_t start, thread, slices, entries, used, is_huge;
};

/* mi_page_t: blocks of one size. */
struct mi_page {
    uint64_t start, end;        /* of its blocks, as many as were ever given */
    uint64_t limit;             /* of its memory */
    uint64_t size, count, used;
    uint64_t record;
    uint64_t thread;            /* of its heap, or 0 */
    uint64_t delayed;           /* blocks in the list of its heap */
    uint8_t *free;              /* a bit for each block */
};

struct mimalloc {
    struct other_heap *heap;
    const struct mi_layout *layout;
    struct mi_heap *heaps;      /* by ascending start */
    size_t heap_count;
    struct mi_segment *segments;
    size_t segment_count;
    struct mi_page *pages;      /* by ascending start, once sorted */
    size_t page_count;
    uint64_t cookie;
};

/* mimalloc.c */
struct mi_heap *known_heap(struct mimalloc *mi, uint64_t start);

/* mimalloc_segments.c */
int find_segments(struct mimalloc *mi);
void find_layout(struct mimalloc *mi);
void take_segments(struct mimalloc *mi);

/* mimalloc_lists.c */
void take_lists(struct mimalloc *mi);

#endif
