/* Held blocks by classes: by size, by the kinds of their words and by how they are reached, since most of a program's
 * blocks are of a few kinds. */
#ifndef LEAK_WHAT_CLASSES_H
#define LEAK_WHAT_CLASSES_H

#include "what.h"

/* Of a block the first words are compared. */
enum { MOST_WORDS = 48, LEAST_BYTES = 6 * WORD };

struct class {
    uint64_t hash;
    uint32_t codes;             /* where its codes are in the pool */
    int32_t role;
    uint32_t count;
    long first;                 /* one of its blocks */
    uint32_t next;              /* of its size, + 1 */
};

struct size {
    uint64_t size;
    uint32_t first, count;      /* classes: the first one + 1 */
};

struct seen {
    uint32_t classes, blocks;   /* of a role */
};

struct known {
    uint64_t hash;
    struct likeness likeness;
};

struct classes {
    struct size *sizes;         /* of lost blocks that are compared, ascending */
    size_t size_count;
    struct class *list;
    size_t count;
    uint32_t *index;            /* of classes + 1, by hash; 0 is free */
    uint32_t *pool;             /* codes of words */
    size_t used;
    int32_t *root;              /* of each role the one that it begins with */
    struct seen *of_role;
    uint64_t *held;             /* of each held block that was classified its root and its size's place, ascending */
    size_t held_count;
    struct known *known;        /* answers, by hash; 0 is free */
    size_t known_size;
    uint64_t compared;          /* words */
    uint64_t left_out;          /* kinds of lost blocks, since that was too many */
};

uint64_t mixed(uint64_t hash, uint64_t value);
size_t read_codes(struct what *what, const struct block *block, uint32_t codes[MOST_WORDS]);
int is_candidate(struct what *what, long block);
struct size *size_of(const struct classes *classes, uint64_t size);

#endif
