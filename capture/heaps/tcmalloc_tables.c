/* Where tcmalloc's tables are, without symbols (src/common.h, pagemap.h, central_freelist.h). They are static data, so they are looked for in the
 * memory of files and in what follows it. */
#include "tcmalloc.h"

enum { LAST_SIZE = 256 << 10, CENTRAL_BYTES = 1216, TO_CLASS = 8, TO_EMPTY = 16, SPAN_BYTES = 48 };

/* Calls `take` for each word that isn't 0 of static data, until it gives 1, and says whether it did. */
static int look_for(struct tcmalloc *tc, int (*take)(struct tcmalloc *tc, uint64_t at, uint64_t value))
{
    enum { MOST_ZEROS = 4 << 20 };
    const struct parts *parts = &tc->heap->core->parts;
    const struct segment *s;
    size_t next = 0, part = 0;

    while ((s = next_writable(tc->heap, &next))) {
        while (part + 1 < parts->count && parts->list[part + 1].start <= s->start)
            part++;
        if (!parts->count || s->start < parts->list[part].start || s->start >= parts->list[part].end + MOST_ZEROS)
            continue;
        for (uint64_t at = (s->start + 7) & -(uint64_t)8, value; next_word(tc->heap, &at, s->start + s->size, &value); at += 8)
            if (take(tc, at, value))
                return 1;
    }
    return 0;
}

/* Four bytes of a table. */
static int read_half(struct tcmalloc *tc, uint64_t at, uint64_t *value)
{
    if (!read_word(tc->heap, at & -(uint64_t)8, value))
        return 0;
    *value = at % 8 ? *value >> 32 : *value & UINT32_MAX;
    return 1;
}

/* SizeMap: num_objects_to_move_ and class_to_size_, of 4 bytes, and class_to_pages_, of 8. The sizes ascend to 256 KiB. */
static int read_sizes(struct tcmalloc *tc, uint64_t at)
{
    uint64_t pages = (at + 4 * MOST_CLASSES + 7) & -(uint64_t)8, value;
    unsigned n = 1;

    for (; n < MOST_CLASSES && read_half(tc, at + 4 * n, &value) && value > tc->size_of[n - 1]; n++)
        tc->size_of[n] = value;
    if (tc->size_of[n - 1] != LAST_SIZE)
        return 0;
    for (unsigned i = n; i < MOST_CLASSES; i++)
        if (!read_half(tc, at + 4 * i, &value) || value)
            return 0;
    for (unsigned i = 1; i < n; i++)
        if (!read_word(tc->heap, pages + 8 * i, tc->pages_of + i) || !tc->pages_of[i] || tc->pages_of[i] > 256
            || tc->size_of[i] > tc->pages_of[i] << PAGE_SHIFT || !read_half(tc, at - 4 * MOST_CLASSES + 4 * i, tc->moved_of + i) || !tc->moved_of[i])
            return 0;
    tc->classes = n;
    tc->sizes_at = at;
    return 1;
}

/* The first sizes are 0, 8 and 16. */
static int begins_sizes(struct tcmalloc *tc, uint64_t at, uint64_t value)
{
    if (value == (uint64_t)8 << 32)
        return read_sizes(tc, at);
    return value == ((uint64_t)16 << 32 | 8) && read_sizes(tc, at - 4);
}

int find_sizes(struct tcmalloc *tc)
{
    return look_for(tc, begins_sizes);
}

/* central_freelist.h: a list for each class has its number, and two heads of lists of spans that lead back. */
static int is_central(struct tcmalloc *tc, uint64_t at, uint64_t value)
{
    uint64_t base = at - TO_CLASS - CENTRAL_BYTES, class, next, back;

    if (value != 1)
        return 0;
    for (uint64_t i = 1; i < tc->classes; i++) {
        uint64_t list = base + CENTRAL_BYTES * i, head = list + TO_EMPTY;
        if (!read_word(tc->heap, list + TO_CLASS, &class) || class != i || !read_word(tc->heap, head + 16, &next)
            || !read_word(tc->heap, next + 24, &back) || back != head)
            return 0;
    }
    tc->central = base;
    return 1;
}

int find_central(struct tcmalloc *tc)
{
    return look_for(tc, is_central);
}

/* A span that a central list leads to, and its first page; 0 if all lists are empty. */
static uint64_t some_span(struct tcmalloc *tc, uint64_t *start)
{
    uint64_t span;

    for (uint64_t i = 1; i < tc->classes; i++)
        for (uint64_t k = 0; k < 2; k++) {
            uint64_t head = tc->central + CENTRAL_BYTES * i + TO_EMPTY + SPAN_BYTES * k;
            if (read_word(tc->heap, head + 16, &span) && span != head && read_word(tc->heap, span, start) && *start >> LEAF_SHIFT < ROOT_LENGTH)
                return span;
        }
    return 0;
}

/* Each word of the root leads to memory that has room for a leaf. */
static int is_root(struct tcmalloc *tc, uint64_t root)
{
    uint64_t at = root, leaf;

    for (; next_word(tc->heap, &at, root + 8 * ROOT_LENGTH, &leaf); at += 8) {
        const struct segment *s = leaf % 8 || leaf >> 47 ? NULL : segment_at(tc->heap->core, leaf);
        if (!s || s->run_end - leaf < 8 * (uint64_t)LEAF_LENGTH)
            return 0;
    }
    return 1;
}

/* Whether this word is the root's for the leaf that leads to the span. */
static int is_in_root(struct tcmalloc *tc, uint64_t at, uint64_t leaf)
{
    uint64_t key = tc->start >> LEAF_SHIFT, span;

    if (leaf % 8 || leaf >> 47 || at < 8 * key || !read_word(tc->heap, leaf + 8 * (tc->start % LEAF_LENGTH), &span) || span != tc->span
        || !is_root(tc, at - 8 * key))
        return 0;
    tc->root = at - 8 * key;
    return 1;
}

/* Finds the map of pages by a span of the central lists. */
int find_map(struct tcmalloc *tc)
{
    tc->span = some_span(tc, &tc->start);
    return tc->span && look_for(tc, is_in_root);
}

/* The word of a page: the span that has it, or had it once. */
int map_word(struct tcmalloc *tc, uint64_t page, uint64_t *span)
{
    uint64_t leaf;

    return page >> LEAF_SHIFT < ROOT_LENGTH && read_word(tc->heap, tc->root + 8 * (page >> LEAF_SHIFT), &leaf) && leaf
        && read_word(tc->heap, leaf + 8 * (page % LEAF_LENGTH), span);
}
