/* Nodes and leaves of jemalloc's tree (rtree.h). A leaf has for each page a word with the extent, its class and flags;
 * or where addresses of 57 bits leave it no room for them, a second word. Such an entry is read as one word. */
#include "jemalloc.h"

static int is_record(const struct jemalloc *je, uint64_t value, uint64_t size)
{
    return value % 64 == 0 && is_in_base(je, value, size);
}

int may_be_leaf(const struct jemalloc *je, uint64_t value) { return is_record(je, value, leaf_bytes(je)); }

/* Whether a word of the root may lead there: to a leaf, if there are two levels. */
int may_be_node(const struct jemalloc *je, uint64_t value)
{
    return je->shape->levels == 2 ? may_be_leaf(je, value) : is_record(je, value, node_bytes(je));
}

/* The class and the flags of a page's second word, as the first has them where it has room; or -1. */
static uint64_t rest_of_entry(const struct jemalloc *je, uint64_t second)
{
    enum { FLAGS = 5, CLASS = 8, CLASS_AT = 48, SLAB_AT = 32 };
    uint64_t class = je->layout->has_state ? second >> FLAGS : second & UINT32_MAX;
    uint64_t flags = je->layout->has_state ? second & ((1 << FLAGS) - 1) : second >> SLAB_AT;

    return class >> CLASS || flags & ~je->layout->flags ? UINT64_MAX : class << CLASS_AT | flags;
}

/* Reads the entry of a page, as one word. What does not fit leads nowhere. */
int read_entry(struct jemalloc *je, uint64_t at, uint64_t *word)
{
    enum { NOWHERE = 1 };
    uint64_t second, rest;

    if (!read_word(je->heap, at, word))
        return 0;
    if (je->shape->entry == sizeof *word)
        return 1;
    if (!read_word(je->heap, at + 8, &second))
        return 0;
    rest = rest_of_entry(je, second);
    *word = *word >> 47 || *word % je->layout->align || rest == UINT64_MAX ? NOWHERE : *word | rest;
    return 1;
}

/* Goes on from `at` to the next entry of the leaf that is not 0, and says whether there is one. */
int next_entry(struct jemalloc *je, uint64_t leaf, uint64_t *at, uint64_t *word)
{
    if (!next_word(je->heap, at, leaf + leaf_bytes(je), word))
        return 0;
    *at -= (*at - leaf) % je->shape->entry;
    return read_entry(je, *at, word);
}

/* Whether the tree has a leaf for the address, and which. */
int leaf_of(struct jemalloc *je, uint64_t address, uint64_t *leaf)
{
    uint64_t place = je->root, index, mask = ((uint64_t)1 << je->shape->bits) - 1;
    unsigned shift = 12 + je->shape->levels * je->shape->bits;

    if (address >> shift)
        return 0;
    for (unsigned level = 1; level < je->shape->levels; level++, place = *leaf) {
        shift -= je->shape->bits;
        index = address >> shift & mask;
        if (!read_word(je->heap, place + 8 * index, leaf) || !*leaf)
            return 0;
    }
    return 1;
}

/* The entry of the page that has the address, as one word. */
int leaf_word(struct jemalloc *je, uint64_t page, uint64_t *word)
{
    uint64_t leaf, number = page >> 12 & (((uint64_t)1 << je->shape->bits) - 1);

    return leaf_of(je, page, &leaf) && read_entry(je, leaf + je->shape->entry * number, word);
}
