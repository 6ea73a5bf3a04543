/* What the files of the walk of jemalloc 5.3 and 5.2.1 share (x86-64: LG_PAGE 12, LG_VADDR 48 or 57). */
#ifndef LEAK_JEMALLOC_H
#define LEAK_JEMALLOC_H

#include "heaps.h"

enum { EDATA_BYTES = 128, MOST_CLASSES = 235, MAP_WORDS = 8, MOST_REGIONS = 512 };

/* The tree of extents (rtree.h): how many levels, how many bits of an address each takes, and how many bytes a page
 * has in a leaf. */
struct shape {
    unsigned levels, bits, entry;
};

struct jemalloc;

/* What a version lays out as no other does: the bits of an extent's record, and those of a leaf's word that are not the
 * record's address. */
struct layout {
    const char *name;
    unsigned state_at, state_mask, class_at, free_at;
    uint64_t none;              /* bits of a record that are 0 */
    uint64_t align;             /* of a record */
    uint64_t flags;             /* of a leaf's word */
    int has_state;              /* so has a leaf's word, which 5.2.1 lacks */
    void (*take)(struct jemalloc *je);
};

/* An extent of small regions. A set bit: the region is free, in a thread's cache, or jemalloc's own. */
struct slab {
    uint64_t start, end;
    uint64_t edata;
    unsigned class;
    uint64_t free[MAP_WORDS], cached[MAP_WORDS], own[MAP_WORDS];
};

enum use { IN_USE, CACHED, OWN };

/* An extent of one block. */
struct large {
    uint64_t start;             /* of the block */
    uint64_t first, end;        /* of the extent */
    uint64_t size;
    unsigned class;
    enum use use;
};

/* A thread's stack of all bins of its cache, as memory that jemalloc gave itself. */
struct stack {
    uint64_t start;
    int owners, has_items;
};

enum { BIN_BYTES = 24 };

/* Free blocks of one class, which a thread keeps: its part of the stack is from start to end, and the items are from
 * head on. */
struct bin {
    uint64_t start, head, end;
};

/* A thread's cache: small and large say where the bins of small classes and those of others are. */
struct cache {
    uint64_t at, end;
    uint64_t block;             /* the stack's, of 5.2.1 */
    uint64_t small, large;
    unsigned count;
    struct bin bins[MOST_CLASSES];
};

/* A word of a register, or of the top of a stack, and where it is. */
struct hand {
    uint64_t value, at;
};

struct jemalloc {
    struct other_heap *heap;
    struct range *bases;        /* memory of its records, by ascending start */
    size_t base_count;
    const struct layout *layout;
    const struct shape *shape;
    uint64_t root;
    unsigned bins, classes;     /* how many small sizes, and how many in all */
    uint64_t size_of[MOST_CLASSES];
    uint64_t regions_of[MOST_CLASSES]; /* of a slab of the class, or 0 if there is none */
    struct slab *slabs;         /* by ascending start, once sorted */
    size_t slab_count;
    struct large *larges;
    size_t large_count;
    int is_padded, is_bare;     /* the extents of some have a page more, or none more */
    struct stack *stacks;
    size_t stack_count;
    struct hand *hands;         /* words of threads that are inside, by value */
    size_t hand_count;
    uint8_t is_held[MOST_CLASSES];  /* a register of one has a block of the class */
    const char *refused;        /* what is not known */
};

/* jemalloc.c */
int is_in_base(const struct jemalloc *je, uint64_t at, uint64_t size);

/* jemalloc_root.c */
int find_root(struct jemalloc *je);

/* jemalloc_leaves.c */
int may_be_leaf(const struct jemalloc *je, uint64_t value);
int may_be_node(const struct jemalloc *je, uint64_t value);
int read_entry(struct jemalloc *je, uint64_t at, uint64_t *word);
int next_entry(struct jemalloc *je, uint64_t leaf, uint64_t *at, uint64_t *word);
int leaf_of(struct jemalloc *je, uint64_t address, uint64_t *leaf);
int leaf_word(struct jemalloc *je, uint64_t page, uint64_t *word);

/* jemalloc_tree.c */
void take_extents(struct jemalloc *je);

/* jemalloc_items.c */
struct slab *slab_at(const struct jemalloc *je, uint64_t address);
struct slab *region_at(const struct jemalloc *je, uint64_t address, uint64_t *number);
struct large *large_at(const struct jemalloc *je, uint64_t start);
uint64_t place_of_bin(const struct jemalloc *je, const struct cache *cache, unsigned class);
int set_own(struct jemalloc *je, uint64_t block);
int has_items(const struct cache *cache);
void take_items(struct jemalloc *je, const struct cache *cache);

/* jemalloc_caches.c */
void take_thread_caches(struct jemalloc *je);

/* jemalloc_old_caches.c */
void take_old_caches(struct jemalloc *je);

/* jemalloc_hands.c */
void find_hands(struct jemalloc *je);
int is_in_hands(const struct jemalloc *je, struct range words, struct range but);

/* Bits of an address below those that say which leaf it is. */
static inline unsigned leaf_shift(const struct jemalloc *je) { return 12 + je->shape->bits; }
static inline uint64_t node_bytes(const struct jemalloc *je) { return (uint64_t)8 << je->shape->bits; }
static inline uint64_t leaf_bytes(const struct jemalloc *je) { return (uint64_t)je->shape->entry << je->shape->bits; }

/* The extent that the word of a page leads to (edata.h, edata_t; before 5.3 extent_structs.h, extent_t). */
static inline uint64_t edata_of(const struct jemalloc *je, uint64_t word)
{
    return (uint64_t)((int64_t)(word << 16) >> 16) & ~je->layout->flags;
}

static inline int has_bit(const uint64_t *map, uint64_t i)
{
    return map[i / 64] >> i % 64 & 1;
}

static inline void set_bit(uint64_t *map, uint64_t i)
{
    map[i / 64] |= (uint64_t)1 << i % 64;
}

#endif
