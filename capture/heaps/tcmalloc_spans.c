/* tcmalloc's spans (src/span.h, page_heap.cc). The map's words for the first page and the last one of a span lead to
 * it, and for each page if it has objects of a class. Other words may be left over from spans that are gone. */
#include <stdlib.h>

#include "tcmalloc.h"

enum { IN_USE, ON_NORMAL, ON_RETURNED };

struct run {
    uint64_t at, start, length, bits;
};

static int read_run(struct tcmalloc *tc, uint64_t at, struct run *r)
{
    *r = (struct run){ .at = at };
    return at % 8 == 0 && read_word(tc->heap, at, &r->start) && read_word(tc->heap, at + 8, &r->length) && read_word(tc->heap, at + 40, &r->bits)
        && r->start && r->length && r->start < (uint64_t)1 << 35 && r->length < (uint64_t)1 << 30;
}

static unsigned class_of(const struct run *r) { return r->bits >> 16 & 255; }
static unsigned location_of(const struct run *r) { return r->bits >> 24 & 3; }

/* Whether each page that should leads to it. */
static int has_pages(struct tcmalloc *tc, const struct run *r)
{
    uint64_t page = class_of(r) && location_of(r) == IN_USE ? r->start : r->start + r->length - 1, span;

    for (; page < r->start + r->length; page++)
        if (!map_word(tc, page, &span) || span != r->at)
            return 0;
    return 1;
}

static int add_objects(struct tcmalloc *tc, const struct run *r)
{
    struct objects o = { .start = r->start << PAGE_SHIFT, .end = (r->start + r->length) << PAGE_SHIFT, .size = tc->size_of[class_of(r)],
                         .span = r->at, .class = class_of(r) };

    o.count = (o.end - o.start) / o.size;
    o.free = bits_for(tc->heap, o.count);
    if (!o.free)
        return 0;
    tc->spans_of[o.class]++;
    tc->objects = grown(tc->objects, tc->object_count, sizeof *tc->objects);
    tc->objects[tc->object_count++] = o;
    return 1;
}

/* A span, by its first page. */
static int take_run(struct tcmalloc *tc, const struct run *r)
{
    uint64_t start = r->start << PAGE_SHIFT, end = (r->start + r->length) << PAGE_SHIFT;
    unsigned class = class_of(r), place = location_of(r);

    if (place > ON_RETURNED || class >= tc->classes || (class && (place != IN_USE || r->length != tc->pages_of[class])) || !has_pages(tc, r))
        return 0;
    tc->pages += r->length;
    tc->free_pages += place == ON_NORMAL ? r->length : 0;
    tc->returned_pages += place == ON_RETURNED ? r->length : 0;
    if (place != IN_USE)
        add_unused(tc->heap, start, end);
    else if (class)
        return add_objects(tc, r);
    else
        add_block(tc->heap, start, end - start, end - start);
    return 1;
}

/* A word of the map. One for another page than the first of a span may be old, if the span's own first page leads
 * elsewhere. */
static void take_word(struct tcmalloc *tc, uint64_t page, uint64_t span)
{
    struct run r;
    uint64_t first;

    if (!read_run(tc, span, &r) || page < r.start || page - r.start >= r.length)
        return;
    if (page == r.start ? !take_run(tc, &r) : page == r.start + r.length - 1 && (!map_word(tc, r.start, &first) || first != span))
        tell_odd(tc->heap, "the span at 0x%llx does not fit the page at 0x%llx", (unsigned long long)span, (unsigned long long)page << PAGE_SHIFT);
}

static void take_leaf(struct tcmalloc *tc, uint64_t leaf, uint64_t key)
{
    uint64_t at = leaf, span;

    for (; next_word(tc->heap, &at, leaf + 8 * (uint64_t)LEAF_LENGTH, &span); at += 8)
        take_word(tc, key << LEAF_SHIFT | (at - leaf) / 8, span);
}

/* Whether the page heap, which has the map, counts as many bytes as the spans have: all, free ones, and those given
 * back (page_heap.h, Stats). Of its counts the first that is as large as all is that of all. */
static int has_bytes(struct tcmalloc *tc)
{
    enum { AROUND = 256 << 10 };
    uint64_t after = tc->root + 8 * ROOT_LENGTH, value, free, returned;

    for (uint64_t at = after; next_word(tc->heap, &at, after + AROUND, &value); at += 8)
        if (value == tc->pages << PAGE_SHIFT)
            return read_word(tc->heap, at + 8, &free) && free == tc->free_pages << PAGE_SHIFT
                && read_word(tc->heap, at + 16, &returned) && returned == tc->returned_pages << PAGE_SHIFT;
    return 0;
}

void take_spans(struct tcmalloc *tc)
{
    uint64_t at = tc->root, leaf;

    for (; next_word(tc->heap, &at, tc->root + 8 * ROOT_LENGTH, &leaf); at += 8)
        take_leaf(tc, leaf, (at - tc->root) / 8);
    if (tc->object_count)
        qsort(tc->objects, tc->object_count, sizeof *tc->objects, by_start);
    for (size_t i = 1; i < tc->object_count; i++)
        if (tc->objects[i].start < tc->objects[i - 1].end)
            tell_odd(tc->heap, "spans overlap at 0x%llx", (unsigned long long)tc->objects[i].start);
    if (!has_bytes(tc))
        tell_odd(tc->heap, "the spans have 0x%llx bytes, and the page heap counts others", (unsigned long long)tc->pages << PAGE_SHIFT);
}
