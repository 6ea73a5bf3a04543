/* What the files of leak_walk share. */
#ifndef LEAK_WALK_H
#define LEAK_WALK_H

#include <string.h>

#include "../common/entries.h"

#define HEAP_BYTES ((uint64_t)64 << 20) /* glibc, malloc/arena.c, HEAP_MAX_SIZE */

/* A segment of the core (gABI, Program Header, PT_LOAD): the bytes from start on are dumped, the rest up to the end is not. */
struct segment {
    uint64_t start, size, end;
    uint64_t reach_end;         /* of the memory without a gap that it is a part of, whether that can be written or not */
    uint64_t run_start, run_end; /* of the writable memory without a gap that it is a part of; equal if it isn't writable */
    const uint8_t *bytes;
    int is_writable, is_code;
    int is_untouched;           /* it has no bytes, and all of them are 0 */
};

struct range {
    uint64_t start, end;
    int is_writable;
};

/* The registers of a stopped thread that may hold what it is about to write (Linux, struct user_regs_struct). */
enum { REGISTERS = 27, HINTS = 4096 };

struct thread {
    uint64_t words[REGISTERS];
};

/* A thread that has a value in a register. */
struct holder {
    uint64_t value;
    uint32_t thread;            /* its number in the core */
};

/* The part of a segment that words were read from last. */
struct window {
    uint64_t start, places;     /* how many addresses from start on a word begins at */
    const uint8_t *bytes;
};

struct core {
    const char *path;
    struct file file;
    struct window window;
    uint64_t touched;           /* bytes of windows since the file's pages were let go */
    struct segment *segments;   /* by ascending start */
    size_t segment_count;
    const struct segment *near; /* the one that was asked for last, or NULL */
    struct parts parts;
    struct start start;
    int is_by_leak_core;
    const struct part *own_malloc;  /* of a file that has, or may have, a malloc in the place of glibc's */
    struct range *ranges;       /* whole mappings of memory without a file, by leak_core's notes */
    size_t range_count;
    struct signal_stacks stacks;
    struct thread *threads;
    size_t thread_count;
    struct holder *holders;     /* of all registers, by value and thread */
    size_t holder_count;
    uint8_t hints[HINTS];       /* by some bits of its address: may a register have the chunk? */
};

/* glibc, malloc/malloc.c, struct malloc_state: one arena. */
struct arena {
    uint64_t start;
    uint64_t top_at;            /* where its word `top` is */
    uint64_t top, system_mem;
    uint64_t first_heap;        /* of a thread's arena (malloc/arena.c, heap_info); 0 of a main arena */
    int is_contiguous;
};

/* A free chunk whose size a stopped thread was just about to write (hand.c): where it begins, or 0, and its size. The chunk
 * before it is in use. */
struct due {
    uint64_t at, size;
};

/* Chunks in a row. Those of a main arena reach to its top, or to fences where the memory goes on elsewhere; a thread's
 * arena has one region for each of its heaps. */
struct region {
    uint64_t start, end;        /* of the chunks */
    uint64_t top;               /* the chunk at the end that is still unused, or 0 */
    uint64_t limit;             /* the end of the memory */
    uint64_t gap_end;           /* with --partial: from `end` up to here are chunks that nobody knows; else 0 */
    const struct arena *arena;
    struct due due;
};

/* A block with a mapping of its own (malloc/malloc.c, IS_MMAPPED). */
struct mapping {
    uint64_t start, end, block;
};

struct chunk {
    uint64_t at, size;
    int is_used;                /* by the next chunk's bit */
};

struct tally {
    uint64_t count, first;      /* how many, and where the first is */
};

/* What a block takes of memory, or what is not in use. */
struct span {
    uint64_t start;
    uint64_t size;              /* 0: it may be a block that a thread has in hand, and is told as none */
    uint64_t room;              /* up to where nothing else is */
};

struct spans {
    struct span *list;
    size_t count;
};

/* Heaps that are not glibc's, which are right, and which are not. */
struct others {
    struct other_heap *list, *refused;
    size_t count, refused_count;
    struct spans blocks, unused; /* of all that are right, by ascending start */
};

struct heap {
    struct core *core;
    const char *wanting;        /* what there is not, so it is no heap of glibc's; or NULL */
    struct others others;
    struct arena *arenas;       /* by ascending start */
    size_t arena_count;
    int is_unused;              /* malloc was never called: the one arena has nothing */
    int has_fast_bins;
    struct region *regions;     /* by ascending start, once found */
    size_t region_count;
    struct mapping *mappings;   /* by ascending start */
    size_t mapping_count;
    struct chunk *maybe_caches; /* chunks in use with the size of a thread's cache */
    size_t maybe_cache_count;
    uint64_t *in_hand;          /* chunks that a thread is at work on, ascending: neither blocks nor free */
    size_t in_hand_count;
    uint64_t steps_left;        /* more than a right heap needs; a damaged one may lead in circles */
    uint8_t *used;              /* a bit for each 16 bytes of the core: is the size word here one of a chunk in use? */
    uint64_t left_out;          /* bytes of no known chunk */
    struct tally odd_chunks, odd_lists; /* free chunks without their size after them; lists that lead nowhere */
};

/* Where a chain of chunks stops: at the top chunk; at a chunk that goes on over the top's beginning, as it is just being cut
 * from the top or joined to it; at what was the top before a thread's next heap was begun; at the marker of a heap that is
 * full; at the fences of a main arena; or where no chunk can be. */
enum stop { AT_TOP, OVER_TOP, AT_OLD_TOP, AT_MARKER, AT_FENCES, BROKEN };

struct chain {
    uint64_t at, before, count; /* the next chunk, the one before, and how many there were */
    uint64_t top, limit;        /* where it may end (top 0: nowhere), and what no chunk crosses */
    uint64_t heap_end;          /* of a thread's heap without the top, else 0 */
    int is_thread;              /* of a thread's arena */
    struct due due;
    enum stop stop;
};

/* Called for each block in use and each stretch of free memory, or of malloc's own. */
struct visitor {
    void (*block)(struct visitor *visitor, uint64_t start, uint64_t size);
    void (*unused)(struct visitor *visitor, uint64_t from, uint64_t to);
};

/* leak_walk.c */
__attribute__((format(printf, 1, 2))) void damaged(const char *form, ...);
void take_steps(struct heap *heap, uint64_t count, uint64_t near);

/* core.c */
struct core read_core(const char *path);
size_t first_behind(const struct core *core, uint64_t address);
const struct segment *segment_at(struct core *core, uint64_t address);

int word_elsewhere(struct core *core, uint64_t address, uint64_t *value);

/* Whether the core has the eight bytes at the address, and which. */
static inline int word(struct core *core, uint64_t address, uint64_t *value)
{
    uint64_t at = address - core->window.start;

    if (at >= core->window.places)
        return word_elsewhere(core, address, value);
    memcpy(value, core->window.bytes + at, sizeof *value);
    return 1;
}

/* Whether the core has the eight bytes at the address, and where in the file. */
static inline int place_of(struct core *core, uint64_t address, uint64_t *place)
{
    uint64_t value;

    if (!word(core, address, &value))
        return 0;
    *place = core->window.bytes - core->file.bytes + (address - core->window.start);
    return 1;
}

int is_word(struct core *core, uint64_t address, uint64_t wanted);
uint64_t after_hole(struct core *core, uint64_t address);

/* gaps.c */
void read_ranges(struct core *core, const struct note *note, int is_writable);
void fill_gaps(struct core *core);

/* arenas.c */
void find_arenas(struct heap *heap);
const struct arena *arena_at(const struct heap *heap, uint64_t start);
const struct arena *main_arena(const struct heap *heap);
uint64_t end_of(const struct arena *arena);

/* unused.c */
int is_malloc_unused(struct heap *heap);

/* chain.c */
int next_chunk(struct core *core, struct chain *chain, struct chunk *chunk);
struct chain run_chain(struct heap *heap, struct chain chain);
struct chain run_as_is(struct heap *heap, struct chain chain);
int ends_well(const struct chain *chain);
uint64_t find_chain(struct heap *heap, uint64_t from, uint64_t to, uint64_t top, struct chain *found);
void tell_break(struct heap *heap, const char *what, uint64_t start, const struct chain *chain);

/* hand.c */
void read_registers(struct core *core, const struct note *note);
void sort_registers(struct core *core);
int has_in_hand(struct heap *heap, uint64_t one, uint64_t other);
int is_listed(struct core *core, uint64_t chunk);
struct due due_at(struct heap *heap, const struct chain *chain);
struct chain mended(struct heap *heap, const struct chain *start, const struct chain *broken);

/* main_heap.c, thread_heaps.c */
void add_region(struct heap *heap, struct region region);
void find_main_heap(struct heap *heap, const struct arena *arena);
uint64_t head_bytes(const struct arena *arena);
void find_thread_heaps(struct heap *heap);

/* used.c */
void find_used(struct heap *heap);
struct chain chunks_of(const struct region *region);
int is_marked(struct heap *heap, uint64_t at);
int is_in_hand(const struct heap *heap, uint64_t at);
int begins_region(const struct heap *heap, uint64_t at);
int is_used(struct heap *heap, uint64_t at);
void set_used(struct heap *heap, uint64_t at, int used);
uint64_t size_at(struct heap *heap, uint64_t at);

/* lists.c, caches.c */
uint64_t revealed(uint64_t place, uint64_t link, int is_safe);
void take_fast_bins(struct heap *heap);
int may_be_cache(uint64_t size);
void take_caches(struct heap *heap);

/* mapped.c */
void find_mapped(struct heap *heap);

/* visit.c */
void visit(struct heap *heap, struct visitor *visitor);
void visit_arenas(const struct heap *heap, struct visitor *visitor);

/* heaps/heaps.c */
void walk_others(struct heap *heap);
void visit_all(struct heap *heap, struct visitor *visitor);

#endif
