/* What the files of the walk of musl's mallocng share (musl 1.2.1 on, src/malloc/mallocng/meta.h). */
#ifndef LEAK_MUSL_H
#define LEAK_MUSL_H

#include "heaps.h"

enum { UNIT = 16, IN_BAND = 4, CLASSES = 48, MAPPED_CLASS = 63, AREA_HEAD = 24, META_BYTES = 40, METAS = (PAGE - AREA_HEAD) / META_BYTES };

/* struct meta_area: a page of metas. */
struct area {
    uint64_t start, next;
    int is_reached;
};

/* A group that lies in a slot of a larger one, or such a slot: each has the other. */
struct nest {
    uint64_t start, end;
    int is_group;
};

struct musl {
    struct other_heap *heap;
    uint64_t secret;
    uint64_t context;           /* struct malloc_context */
    struct area *areas;         /* by ascending start */
    size_t area_count;
    struct nest *nests;
    size_t nest_count;
    uint64_t slots_of[CLASSES]; /* of all groups that can be freed */
};

/* A meta, and what follows from it. */
struct group {
    uint64_t meta, memory, end;
    uint64_t stride;
    uint32_t available, freed;
    unsigned last, class;
    uint64_t pages;             /* of its own mapping, or 0 */
    int can_go;
};

void take_metas(struct musl *musl, const struct area *area, uint64_t unused_from);

#endif
