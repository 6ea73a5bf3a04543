/* The extents of jemalloc's tree (edata.h, emap.c; before 5.3 extent_structs.h, extent.c). A word for the first page and the last one of each leads to its
 * edata, and for a slab one for each page. Word and edata say the same. */
#include <stdlib.h>

#include "jemalloc.h"

enum { ACTIVE = 0, LAST_AT_REST = 3 };

/* The words of an edata: bits, address, size. */
struct edata {
    uint64_t at, bits, address, size, first, last;
    unsigned class, state, free;
    int is_slab;
};

static int read_edata(struct jemalloc *je, uint64_t word, struct edata *e)
{
    const struct layout *l = je->layout;

    *e = (struct edata){ .at = edata_of(je, word) };
    if (e->at % l->align || !is_in_base(je, e->at, EDATA_BYTES) || !read_word(je->heap, e->at, &e->bits) || !read_word(je->heap, e->at + 8, &e->address)
        || !read_word(je->heap, e->at + 16, &e->size))
        return 0;
    e->size &= -(uint64_t)PAGE;
    e->first = e->address & -(uint64_t)PAGE;
    e->last = e->first + e->size - PAGE;
    e->state = e->bits >> l->state_at & l->state_mask;
    e->class = e->bits >> l->class_at & 255;
    e->is_slab = e->class != je->classes && (e->bits >> 12 & 1); /* of what is free by now, it is left as it was */
    e->free = e->bits >> l->free_at & 1023;
    return e->size && e->last >= e->first && !(e->bits & l->none) && e->class <= je->classes;
}

/* What jemalloc does only if it is told to. */
static const char *unknown_kind(const struct jemalloc *je, const struct edata *e)
{
    if (je->layout->has_state && (e->bits >> 14 & 1))
        return "huge pages of its own (hpa)";
    if (je->layout->has_state && (e->bits >> 16 & 1))
        return "guarded extents";
    return e->state == ACTIVE && !e->is_slab && e->class < je->bins ? "a profile (prof)" : NULL;
}

/* Whether each page's word leads to the edata too: of a slab all, of others the last one. */
static int has_pages(struct jemalloc *je, const struct edata *e)
{
    uint64_t value, page = e->is_slab ? e->first : e->last;

    for (; page <= e->last; page += PAGE)
        if (!leaf_word(je, page, &value) || edata_of(je, value) != e->at
            || (e->is_slab && ((value >> 48) != e->class || !(value & 1))))
            return 0;
    return 1;
}

static int can_be_slab(const struct jemalloc *je, const struct edata *e)
{
    return e->class < je->bins && e->address == e->first && e->size % je->size_of[e->class] == 0 && e->size / je->size_of[e->class] <= MOST_REGIONS;
}

/* Whether its class is that of blocks of this size. From 5.3.1 on a block may have less than the size of its class. */
static int is_of_class(const struct jemalloc *je, const struct edata *e, uint64_t size)
{
    return size > je->size_of[e->class - 1] && size <= je->size_of[e->class];
}

/* A block that isn't small has a page more, in which it begins at a random place, or none (cache_oblivious). */
static int may_be_padded(const struct jemalloc *je, const struct edata *e)
{
    return is_of_class(je, e, e->size - PAGE);
}

static int may_be_bare(const struct jemalloc *je, const struct edata *e)
{
    return is_of_class(je, e, e->size) && e->address == e->first;
}

static int can_be_large(const struct jemalloc *je, const struct edata *e)
{
    return e->class >= je->bins && e->class < je->classes && (e->address - e->first) % 64 == 0
        && (may_be_padded(je, e) || may_be_bare(je, e));
}

/* The map of free regions must have as many bits as the edata says. */
static void add_slab(struct jemalloc *je, const struct edata *e)
{
    struct slab s = { .start = e->first, .end = e->first + e->size, .edata = e->at, .class = e->class };
    uint64_t regions = e->size / je->size_of[e->class], count = 0, beyond = 0;

    for (size_t i = 0; i < MAP_WORDS; i++) {
        if (!read_word(je->heap, e->at + 64 + 8 * i, s.free + i))
            tell_odd(je->heap, "the edata at 0x%llx is cut off", (unsigned long long)e->at);
        for (uint64_t k = 64 * i; k < 64 * i + 64; k++)
            count += k < regions && has_bit(s.free, k), beyond += 64 * i < regions && k >= regions && has_bit(s.free, k);
    }
    if (count != e->free || beyond)
        tell_odd(je->heap, "the slab at 0x%llx has %llu free regions, and says %u", (unsigned long long)e->first, (unsigned long long)(count + beyond), e->free);
    je->regions_of[e->class] = regions;
    je->slabs = grown(je->slabs, je->slab_count, sizeof *je->slabs);
    je->slabs[je->slab_count++] = s;
}

static void add_large(struct jemalloc *je, const struct edata *e)
{
    je->is_padded |= !may_be_bare(je, e);
    je->is_bare |= !may_be_padded(je, e);
    je->larges = grown(je->larges, je->large_count, sizeof *je->larges);
    je->larges[je->large_count++] = (struct large){ e->address, e->first, e->first + e->size, 0, e->class, IN_USE };
}

/* Sets the sizes, once it is known whether blocks have a page more: all have, or none. */
static void set_large_sizes(struct jemalloc *je)
{
    if (je->is_padded && je->is_bare)
        tell_odd(je->heap, "some extents have a page more than their block, and some have none");
    for (size_t i = 0; i < je->large_count; i++)
        je->larges[i].size = je->larges[i].end - je->larges[i].first - (je->is_padded ? PAGE : 0);
}

/* An extent, by the word of its first page. One that is not in use is nobody's. */
static int take_extent(struct jemalloc *je, const struct edata *e, uint64_t word)
{
    int is_as_word = word >> 48 == e->class && (int)(word & 1) == e->is_slab;

    if (!has_pages(je, e))
        return 0;
    if (e->state != ACTIVE) {
        if (e->state > LAST_AT_REST || e->class != je->classes || e->is_slab || e->address != e->first)
            return 0;
        add_unused(je->heap, e->first, e->first + e->size);
    } else if (e->is_slab && is_as_word && can_be_slab(je, e))
        add_slab(je, e);
    else if (!e->is_slab && is_as_word && can_be_large(je, e))
        add_large(je, e);
    else
        return 0;
    return 1;
}

/* A page's word. */
static void take_page(struct jemalloc *je, uint64_t page, uint64_t word)
{
    const uint64_t cleared = (uint64_t)je->classes << 48;
    const char *unknown;
    struct edata e;
    uint64_t other;
    int fits;

    if (word == cleared)
        return;
    fits = read_edata(je, word, &e) && page >= e.first && page <= e.last
        && (!je->layout->has_state || e.state == (word >> 2 & 7)) && (e.is_slab || page == e.first || page == e.last);
    unknown = fits && word >> 48 == e.class ? unknown_kind(je, &e) : NULL;
    if (unknown)
        je->refused = unknown;
    if (fits && page == e.first)
        fits = take_extent(je, &e, word);
    else if (fits)
        fits = leaf_word(je, e.first, &other) && edata_of(je, other) == e.at;
    if (!fits && !unknown)
        tell_odd(je->heap, "the edata at 0x%llx does not fit the page at 0x%llx, whose word is 0x%llx", (unsigned long long)e.at,
                 (unsigned long long)page, (unsigned long long)word);
}

static void take_leaf(struct jemalloc *je, uint64_t leaf, uint64_t key)
{
    uint64_t at = leaf, word;

    if (!may_be_leaf(je, leaf)) {
        tell_odd(je->heap, "the tree of extents leads to 0x%llx, where no leaf is", (unsigned long long)leaf);
        return;
    }
    for (; next_entry(je, leaf, &at, &word); at += je->shape->entry)
        take_page(je, key << leaf_shift(je) | (at - leaf) / je->shape->entry << 12, word);
}

/* Takes the leaves of a node at this level, of which the root has 1. */
static void take_node(struct jemalloc *je, uint64_t node, unsigned level, uint64_t key)
{
    uint64_t at = node, next;

    for (; next_word(je->heap, &at, node + node_bytes(je), &next); at += 8) {
        uint64_t number = key << je->shape->bits | (at - node) / 8;
        if (level + 1 == je->shape->levels)
            take_leaf(je, next, number);
        else
            take_node(je, next, level + 1, number);
    }
}

/* Whether the tree has it, as the extent of blocks that it says it is. */
static int is_in_tree(const struct jemalloc *je, const struct edata *e)
{
    const struct slab *s = e->is_slab ? slab_at(je, e->first) : NULL;
    const struct large *l = e->is_slab ? NULL : large_at(je, e->address);

    return s ? s->edata == e->at : l && l->first == e->first && l->end == e->first + e->size;
}

/* An edata of blocks that are in use must be in the tree: one that is not says so no more. */
static void look_for_extents(struct jemalloc *je, const struct range *base)
{
    struct edata e;
    uint64_t at = base->start, value;

    for (; next_word(je->heap, &at, base->end, &value); at += 8)
        if (at % je->layout->align == 0 && !(value & je->layout->none) && read_edata(je, at & (((uint64_t)1 << 48) - 1), &e)
            && e.state == ACTIVE && (e.is_slab ? can_be_slab(je, &e) : can_be_large(je, &e))
            && segment_at(je->heap->core, e.first) && !is_in_tree(je, &e))
            tell_odd(je->heap, "the extent at 0x%llx is not in the tree", (unsigned long long)e.first);
}

/* Takes all extents of the tree. */
void take_extents(struct jemalloc *je)
{
    take_node(je, je->root, 1, 0);
    set_large_sizes(je);
    if (je->slab_count)
        qsort(je->slabs, je->slab_count, sizeof *je->slabs, by_start);
    if (je->large_count)
        qsort(je->larges, je->large_count, sizeof *je->larges, by_start);
    for (size_t i = 0; i < je->base_count; i++)
        look_for_extents(je, je->bases + i);
}
