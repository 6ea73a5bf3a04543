/* The heap of gperftools' tcmalloc 2.10, without symbols (src/{common,pagemap,span,central_freelist,thread_cache}.h):
 * by its table of sizes, its map of pages and its central lists. */
#include <stdlib.h>

#include "tcmalloc.h"

static void tell_objects(struct tcmalloc *tc, const struct objects *o)
{
    uint64_t at = o->start;

    for (uint64_t i = 0; i < o->count; i++, at += o->size)
        if (o->free[i / 8] >> i % 8 & 1)
            add_unused(tc->heap, at, at + o->size);
        else
            add_block(tc->heap, at, o->size, o->size);
    add_unused(tc->heap, at, o->end);
}

static enum finding walk_tables(struct tcmalloc *tc)
{
    if (!find_central(tc) || !find_map(tc))
        return refuse(tc->heap, "it has the sizes of tcmalloc's classes, and no central lists or map of pages that are known (2.10 has them)");
    tc->heap->anchor = tc->root;
    count_inside(tc->heap, tc->root);
    take_spans(tc);
    take_object_lists(tc);
    take_caches_of_threads(tc);
    if (judge(tc->heap, 4, 4) != WALKED)
        return NOT_RIGHT;
    for (size_t i = 0; i < tc->object_count; i++)
        tell_objects(tc, tc->objects + i);
    return judge(tc->heap, 4, 4);
}

enum finding walk_tcmalloc(struct other_heap *heap)
{
    struct tcmalloc *tc = calloc(1, sizeof *tc);
    enum finding found = NOT_THERE;

    if (!tc)
        fail("out of memory");
    tc->heap = heap;
    if (find_sizes(tc))
        found = walk_tables(tc);
    for (size_t i = 0; i < tc->object_count; i++)
        free(tc->objects[i].free);
    free(tc->objects);
    free(tc->caches);
    free(tc);
    return found;
}
