/* What the walks of heaps share that are not glibc's. */
#ifndef LEAK_HEAPS_H
#define LEAK_HEAPS_H

#include "../walk/walk.h"

enum finding { NOT_THERE, NOT_RIGHT, WALKED };

/* The heap of one allocator. */
struct other_heap {
    struct core *core;
    const char *name;           /* as the log has it, with the version once that is known */
    uint64_t anchor;            /* an address that stays the same in a process, and tells it from others */
    struct spans blocks;        /* with what is neither in use nor free */
    struct spans unused;        /* free memory, and the allocator's own */
    uint64_t inside;            /* threads that may be at work in it */
    uint8_t *is_inside;         /* of each thread of the core */
    uint64_t odd;               /* what doesn't fit, as if a thread were at work on it */
    uint64_t steps_left, spans_left, places_left;
    char why[300];              /* what does not fit */
};

/* What a thread runs, or ran as a signal interrupted it: then its registers are in memory. */
struct moment {
    uint64_t rip, rsp;
    uint64_t saved, saved_count;
    unsigned depth;
};

/* memory.c */
int read_word(struct other_heap *heap, uint64_t address, uint64_t *value);
int next_word(struct other_heap *heap, uint64_t *at, uint64_t to, uint64_t *value);
uint64_t next_multiple(struct other_heap *heap, uint64_t at, uint64_t unit);
const struct segment *next_writable(struct other_heap *heap, size_t *next);
void take_of(struct other_heap *heap, uint64_t steps);

/* spans.c */
void add_block(struct other_heap *heap, uint64_t start, uint64_t size, uint64_t room);
void add_unused(struct other_heap *heap, uint64_t start, uint64_t end);
void add_neither(struct other_heap *heap, uint64_t start, uint64_t end);
uint8_t *bits_for(struct other_heap *heap, uint64_t count);
const struct span *overlap_of(const struct spans *spans);
void cut_out(struct spans *unused, const struct spans *blocks);

/* judge.c */
__attribute__((format(printf, 2, 3))) enum finding refuse(struct other_heap *heap, const char *form, ...);
__attribute__((format(printf, 2, 3))) void tell_odd(struct other_heap *heap, const char *form, ...);
enum finding judge(struct other_heap *heap, uint64_t each, uint64_t more);

/* inside.c */
struct moment moment_of(const struct thread *thread);
int go_to_interrupted(struct other_heap *heap, struct moment *m);
void count_inside(struct other_heap *heap, uint64_t address);

/* the walks */
enum finding walk_musl(struct other_heap *heap);
enum finding walk_jemalloc(struct other_heap *heap);
enum finding walk_mimalloc(struct other_heap *heap);
enum finding walk_tcmalloc(struct other_heap *heap);

#endif
