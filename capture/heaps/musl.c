/* The heap of musl's mallocng (musl 1.2.1 on, src/malloc/mallocng), without symbols. Its secret is the second half of the 16 random bytes that the
 * kernel gives each program (getauxval(3), AT_RANDOM). Each page of metas begins with it, and so does the one struct malloc_context, which leads to the
 * first and the last of these pages. */
#include <stdlib.h>

#include "musl.h"

/* Offsets in struct malloc_context. */
enum { TO_INIT_DONE = 8, TO_FREE_META = 24, TO_FREE_COUNT = 32, TO_HEAD = 56, TO_TAIL = 64, TO_USAGE = 464 };

static void add_area(struct musl *musl, uint64_t start)
{
    uint64_t next;

    if (!read_word(musl->heap, start + 8, &next))
        return;
    musl->areas = grown(musl->areas, musl->area_count, sizeof *musl->areas);
    musl->areas[musl->area_count++] = (struct area){ start, next, 0 };
}

static void find_areas_in(struct musl *musl, const struct segment *s)
{
    uint64_t at = (s->start + PAGE - 1) & -(uint64_t)PAGE, value;

    for (; at >= s->start && at - s->start < s->size && read_word(musl->heap, at, &value); at += PAGE)
        if (value == musl->secret && read_word(musl->heap, at + 16, &value) && (uint32_t)value == METAS)
            add_area(musl, at);
        else if (after_hole(musl->heap->core, at) > at + PAGE)
            at = after_hole(musl->heap->core, at) - PAGE;
}

static struct area *area_at(const struct musl *musl, uint64_t start)
{
    return musl->area_count ? bsearch(&start, musl->areas, musl->area_count, sizeof *musl->areas, by_start) : NULL;
}

static int is_context(struct musl *musl, uint64_t at)
{
    uint64_t done, head, tail;

    return read_word(musl->heap, at + TO_INIT_DONE, &done) && (uint32_t)done == 1 && read_word(musl->heap, at + TO_HEAD, &head)
        && area_at(musl, head) && read_word(musl->heap, at + TO_TAIL, &tail) && area_at(musl, tail);
}

/* Gives how many there are. */
static size_t find_contexts(struct musl *musl)
{
    const struct segment *s;
    size_t next = 0, count = 0;

    while ((s = next_writable(musl->heap, &next)))
        for (uint64_t at = (s->start + 7) & -(uint64_t)8, value; next_word(musl->heap, &at, s->start + s->size, &value); at += 8)
            if (value == musl->secret && is_context(musl, at))
                musl->context = at, count++;
    return count;
}

/* Whether the list from head to tail has each area once. */
static int is_one_list(struct musl *musl)
{
    uint64_t at, tail;
    size_t count = 0;

    if (!read_word(musl->heap, musl->context + TO_HEAD, &at) || !read_word(musl->heap, musl->context + TO_TAIL, &tail))
        return 0;
    for (struct area *area = area_at(musl, at); area && !area->is_reached; area = area_at(musl, area->next)) {
        area->is_reached = 1;
        at = area->start;
        count++;
    }
    return count == musl->area_count && at == tail && !area_at(musl, tail)->next;
}

/* Where in the last area the metas begin that were never used; 0 if the context does not say. */
static uint64_t first_unused(struct musl *musl)
{
    uint64_t tail, meta, left;

    if (!read_word(musl->heap, musl->context + TO_TAIL, &tail) || !read_word(musl->heap, musl->context + TO_FREE_META, &meta)
        || !read_word(musl->heap, musl->context + TO_FREE_COUNT, &left) || left > METAS)
        return 0;
    return meta + left * META_BYTES == tail + AREA_HEAD + METAS * META_BYTES ? meta : 0;
}

/* Whether malloc counts as many slots of each class as its groups have. */
static void check_usage(struct musl *musl)
{
    uint64_t usage;

    for (size_t i = 0; i < CLASSES; i++)
        if (!read_word(musl->heap, musl->context + TO_USAGE + 8 * i, &usage) || usage != musl->slots_of[i])
            tell_odd(musl->heap, "the groups of class %zu have %llu slots, and %llu are counted", i, (unsigned long long)musl->slots_of[i],
                     (unsigned long long)usage);
}

static int by_start_and_kind(const void *a, const void *b)
{
    const struct nest *x = a, *y = b;

    return x->start != y->start ? (x->start < y->start ? -1 : 1) : x->is_group - y->is_group;
}

/* A group without a mapping of its own lies in a slot, and such a slot has one. */
static void check_nests(struct musl *musl)
{
    if (musl->nest_count)
        qsort(musl->nests, musl->nest_count, sizeof *musl->nests, by_start_and_kind);
    for (size_t i = 0; i < musl->nest_count; i++) {
        const struct nest *n = musl->nests + i;
        if (!n->is_group && i + 1 < musl->nest_count && n[1].start == n->start && n[1].is_group) {
            i++;
            continue;
        }
        tell_odd(musl->heap, n->is_group ? "the group at 0x%llx lies in no slot" : "the slot at 0x%llx has no group", (unsigned long long)n->start);
        if (!n->is_group)
            add_neither(musl->heap, n->start, n->end);
    }
}

/* musl before 1.2.1, or built with its old malloc, has a heap without such pages. */
static enum finding no_areas(struct musl *musl)
{
    const struct parts *parts = &musl->heap->core->parts;

    for (size_t i = 0; i < parts->count; i++)
        if (!strncmp(name_of(parts->list + i), "ld-musl-", 8))
            return refuse(musl->heap, "its heap is not mallocng's: musl before 1.2.1 has another, or malloc was never called");
    return NOT_THERE;
}

static enum finding walk_areas(struct musl *musl)
{
    size_t contexts = find_contexts(musl);
    uint64_t tail, unused;

    if (contexts != 1)
        return refuse(musl->heap, "%zu places begin as struct malloc_context does", contexts);
    musl->heap->anchor = musl->context;
    count_inside(musl->heap, musl->context);
    if (!is_one_list(musl))
        return refuse(musl->heap, "its pages of metas are not one list");
    unused = first_unused(musl);
    if (!unused || !read_word(musl->heap, musl->context + TO_TAIL, &tail))
        return refuse(musl->heap, "the context at 0x%llx does not say which metas were never used", (unsigned long long)musl->context);
    for (size_t i = 0; i < musl->area_count; i++)
        take_metas(musl, musl->areas + i, musl->areas[i].start == tail ? unused : UINT64_MAX);
    check_usage(musl);
    check_nests(musl);
    return judge(musl->heap, 3, 3);
}

enum finding walk_musl(struct other_heap *heap)
{
    struct musl musl = { .heap = heap };
    const struct segment *s;
    size_t next = 0;
    enum finding found;

    if (!heap->core->start.random || !read_word(heap, heap->core->start.random + 8, &musl.secret) || !musl.secret)
        return NOT_THERE;
    while ((s = next_writable(heap, &next)))
        find_areas_in(&musl, s);
    if (!musl.area_count)
        return no_areas(&musl);
    qsort(musl.areas, musl.area_count, sizeof *musl.areas, by_start);
    found = walk_areas(&musl);
    free(musl.areas);
    free(musl.nests);
    return found;
}
