/* The root of jemalloc's tree of extents (rtree.h). */
#include "jemalloc.h"

enum { TRIES = 16 };

/* As jemalloc is built for addresses of 48 bits, and of 57. */
static const struct shape shapes[] = { { 2, 18, 8 }, { 3, 15, 16 } };

/* Gives which leaf it is, by the first extents that its words lead to: each has its address. Words of one extent come
 * first and last, so not each has its own. */
static int key_of(struct jemalloc *je, uint64_t leaf, uint64_t *key)
{
    uint64_t at = leaf, word, address;

    for (int tried = 0; tried < TRIES && next_entry(je, leaf, &at, &word); at += je->shape->entry) {
        uint64_t edata = edata_of(je, word);
        if (!edata)
            continue;
        tried++;
        if (edata % je->layout->align || !is_in_base(je, edata, EDATA_BYTES) || !read_word(je->heap, edata + 8, &address))
            return 0;
        *key = address >> leaf_shift(je);
        if (address >> 12 == (*key << je->shape->bits | (at - leaf) / je->shape->entry))
            return 1;
    }
    return 0;
}

/* Gives which word of the root leads to this node, by one of its leaves; a node may be a leaf. */
static int index_of(struct jemalloc *je, uint64_t node, uint64_t *index)
{
    uint64_t at = node, leaf, key;

    if (je->shape->levels == 2)
        return key_of(je, node, index);
    for (int tried = 0; tried < TRIES && next_word(je->heap, &at, node + node_bytes(je), &leaf); at += 8, tried++) {
        if (!may_be_leaf(je, leaf))
            return 0;
        if (!key_of(je, leaf, &key))
            continue;
        *index = key >> je->shape->bits;
        return key == (*index << je->shape->bits | (at - node) / 8);
    }
    return 0;
}

/* Each word of a root leads to a node; those of a thread's own list of leaves do too, but other words stand between. */
static int is_root(struct jemalloc *je, uint64_t root)
{
    uint64_t at = root, value;
    int found = 0;

    for (; next_word(je->heap, &at, root + node_bytes(je), &value); at += 8, found = 1)
        if (!may_be_node(je, value))
            return 0;
    return found;
}

/* A thread remembers leaves (rtree_ctx.h): by the address, without its low bits, the leaf. The tree must have the
 * same. */
static int agrees(struct jemalloc *je, uint64_t address, uint64_t leaf)
{
    uint64_t value, key;

    return address >> 48 || address % ((uint64_t)1 << leaf_shift(je)) || !address || !key_of(je, leaf, &key)
        || key != address >> leaf_shift(je) || (leaf_of(je, address, &value) && value == leaf);
}

/* Whether this word, which leads to a node, is the root's; or if the root is known, whether it may be beside it. */
static int take_word(struct jemalloc *je, uint64_t at, uint64_t value)
{
    uint64_t index, before;

    if (je->root && (at - je->root < node_bytes(je) || !may_be_leaf(je, value)))
        return 1;
    if (je->root)
        return !read_word(je->heap, at - 8, &before) || agrees(je, before, value);
    if (index_of(je, value, &index) && at >= 8 * index && is_root(je, at - 8 * index))
        je->root = at - 8 * index;
    return 1;
}

static int look_in(struct jemalloc *je, const struct segment *s)
{
    uint64_t value;

    for (uint64_t at = (s->start + 7) & -(uint64_t)8; next_word(je->heap, &at, s->start + s->size, &value); at += 8)
        if (may_be_node(je, value) && !is_in_base(je, at, 8) && !take_word(je, at, value))
            return 0;
    return 1;
}

/* Finds a root, and then compares the tree with what threads remember. */
static int find_root_of(struct jemalloc *je, const struct shape *shape)
{
    const struct segment *s;

    je->shape = shape;
    for (int turn = 0; turn < 2; turn++)
        for (size_t next = 0; (turn || !je->root) && (s = next_writable(je->heap, &next));)
            if (!look_in(je, s))
                return 0;
    return je->root != 0;
}

int find_root(struct jemalloc *je)
{
    je->root = 0;
    for (size_t i = 0; i < sizeof shapes / sizeof *shapes && !je->root; i++)
        if (find_root_of(je, shapes + i))
            return 1;
    return 0;
}
