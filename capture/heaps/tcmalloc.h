/* What the files of the walk of gperftools' tcmalloc 2.10 share (x86-64: pages of 8 KiB, 48 bits of address). */
#ifndef LEAK_TCMALLOC_H
#define LEAK_TCMALLOC_H

#include "heaps.h"

enum { PAGE_SHIFT = 13, LEAF_SHIFT = 18, LEAF_LENGTH = 1 << LEAF_SHIFT, ROOT_LENGTH = 1 << 17, MOST_CLASSES = 128 };

/* span.h, struct Span, of objects of one class. */
struct objects {
    uint64_t start, end;
    uint64_t size, count;
    uint64_t span;
    unsigned class;
    uint8_t *free;              /* a bit for each object */
};

struct tcmalloc {
    struct other_heap *heap;
    uint64_t sizes_at;          /* SizeMap::class_to_size_ */
    uint64_t size_of[MOST_CLASSES], pages_of[MOST_CLASSES], moved_of[MOST_CLASSES];
    unsigned classes;
    uint64_t central;           /* the central lists */
    uint64_t span, start;       /* one of their spans, and its first page */
    uint64_t root;              /* of the map of pages */
    struct objects *objects;    /* by ascending start, once sorted */
    size_t object_count;
    struct range *caches;       /* where threads' caches begin */
    size_t cache_count;
    uint64_t pages, free_pages, returned_pages; /* of all spans, and of those that are free, or given back to the system too */
    uint64_t spans_of[MOST_CLASSES], free_of[MOST_CLASSES]; /* spans of a class, and objects in their own lists */
};

/* tcmalloc_tables.c */
int find_sizes(struct tcmalloc *tc);
int find_map(struct tcmalloc *tc);
int find_central(struct tcmalloc *tc);
int map_word(struct tcmalloc *tc, uint64_t page, uint64_t *span);

/* tcmalloc_spans.c */
void take_spans(struct tcmalloc *tc);

/* tcmalloc_lists.c */
void take_object_lists(struct tcmalloc *tc);
uint64_t take_list(struct tcmalloc *tc, uint64_t object, unsigned class, uint64_t *last);

/* tcmalloc_caches.c */
void take_caches_of_threads(struct tcmalloc *tc);

#endif
