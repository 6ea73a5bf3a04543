/* Containers of C++'s standard library, as libstdc++ lays them out. */
#ifndef LEAK_WHAT_CONTAINERS_H
#define LEAK_WHAT_CONTAINERS_H

#include "what.h"

/* Words of a container, and of a tree's node (libstdc++, bits/stl_tree.h, bits/hashtable.h, bits/basic_string.h). A tree's own node is red, and has the root, the first and the last node. */
enum { COLOR, PARENT, LEFT, RIGHT, COUNT, TREE_WORDS, ROOT = PARENT };
enum { BUCKETS, BUCKET_COUNT, FIRST, ELEMENTS, LOAD, RESIZE, ONLY_BUCKET, TABLE_WORDS };
enum { TEXT_START, LENGTH, CAPACITY, STRING_WORDS };
enum { RED, BLACK, LEAST_CAPACITY = 16, MOST_STEPS = 1 << 26 };

struct search {
    struct what *what;
    struct containers *found;
    uint32_t *met;              /* by block, the number of the container that a node was met of last */
    uint32_t number;            /* of the container */
    int is_stale;               /* whether the block that it is in leads to memory that is free */
    uint32_t *queue;            /* its nodes */
    uint64_t steps;
    struct container now;
    const uint64_t *words;
    uint64_t at;                /* where they are */
};

/* containers.c */
long block_at(const struct search *search, uint64_t address);
int read_words(struct search *search, uint64_t at, uint64_t *words, size_t count);
void take_block(struct search *search, long block);

/* nodes.c */
void find_tree(struct search *search);
void find_table(struct search *search);

#endif
