/* What a stopped thread was about to write. To cut a chunk, or to join free ones, malloc writes several words, and a thread
 * can stop between any two of them: then the size word of the new free chunk is what memory had there before. But the thread
 * still has the chunk's address and its size in registers, since it was to store them next (glibc, malloc/malloc.c, set_head).
 * */
#include <stdlib.h>
#include <sys/procfs.h>

#include "walk.h"

enum { CHUNK_HEAD = 8, PREV_INUSE = 1, NON_MAIN_ARENA = 4, FLAGS = 7, ALIGNMENT = 16, LEAST = 32, TO_BLOCK = 16, FD = 16, BK = 24 };

static size_t hint_of(uint64_t address)
{
    return address / ALIGNMENT % HINTS;
}

/* Of a thread's status (Linux, struct elf_prstatus), its registers. */
void read_registers(struct core *core, const struct note *note)
{
    struct thread *thread;

    if (note->size < offsetof(struct elf_prstatus, pr_reg) + sizeof thread->words)
        return;
    core->threads = grown(core->threads, core->thread_count, sizeof *core->threads);
    thread = core->threads + core->thread_count++;
    memcpy(thread->words, note->bytes + offsetof(struct elf_prstatus, pr_reg), sizeof thread->words);
    for (size_t i = 0; i < REGISTERS; i++)
        core->hints[hint_of(thread->words[i])] = 1;
}

static int has(const struct thread *thread, uint64_t value)
{
    int found = 0;

    for (size_t i = 0; i < REGISTERS; i++)
        found |= thread->words[i] == value;
    return found;
}

static int has_chunk(const struct thread *thread, uint64_t chunk)
{
    return chunk && (has(thread, chunk) || has(thread, chunk + TO_BLOCK));
}

static int by_value_and_thread(const void *a, const void *b)
{
    const struct holder *x = a, *y = b;

    return x->value != y->value ? (x->value < y->value ? -1 : 1) : (x->thread > y->thread) - (x->thread < y->thread);
}

/* Sorts what the registers of all threads hold, so that who has a value is found by halving. */
void sort_registers(struct core *core)
{
    size_t left = 0, count = core->thread_count * REGISTERS;

    core->holders = malloc((count + 1) * sizeof *core->holders);
    if (!core->holders)
        fail("out of memory");
    for (size_t i = 0; i < count; i++)
        core->holders[i] = (struct holder){ core->threads[i / REGISTERS].words[i % REGISTERS], i / REGISTERS };
    qsort(core->holders, count, sizeof *core->holders, by_value_and_thread);
    for (size_t i = 0; i < count; i++)
        if (!left || by_value_and_thread(core->holders + left - 1, core->holders + i))
            core->holders[left++] = core->holders[i];
    core->holder_count = left;
}

/* The threads that have the value in a register, one after the other. They count as steps: a thousand threads may have any value. */
static struct held {
    const struct holder *at, *end;
} held_by(struct heap *heap, uint64_t value)
{
    const struct core *core = heap->core;
    size_t low = 0, high = core->holder_count;

    while (low < high) {
        size_t middle = low + (high - low) / 2;
        if (core->holders[middle].value < value)
            low = middle + 1;
        else
            high = middle;
    }
    for (high = low; high < core->holder_count && core->holders[high].value == value;)
        high++;
    take_steps(heap, high - low, value);
    return (struct held){ core->holders + low, core->holders + high };
}

static int has_both(struct heap *heap, uint64_t value, uint64_t other)
{
    struct held held = held_by(heap, value);
    int found = 0;

    for (; held.at < held.end; held.at++)
        found |= has_chunk(heap->core->threads + held.at->thread, other);
    return found;
}

/* Whether a thread has both chunks, or their blocks, in its registers. */
int has_in_hand(struct heap *heap, uint64_t one, uint64_t other)
{
    return one && (has_both(heap, one, other) || has_both(heap, one + TO_BLOCK, other));
}

/* Whether a list of free chunks has it, which leads back to it. */
int is_listed(struct core *core, uint64_t chunk)
{
    uint64_t next, previous;

    return word(core, chunk + FD, &next) && word(core, chunk + BK, &previous) && is_word(core, next + BK, chunk)
        && is_word(core, previous + FD, chunk);
}

/* What speaks for a chunk of some size here: nothing; that the next one says it is free; or as much as no other memory has. */
enum evidence { NONE, WEAK, STRONG };

/* Whether a chunk is free up to its end: its size is after it, and the next one says so. */
static int is_whole(struct core *core, uint64_t at, uint64_t size)
{
    uint64_t next;

    return size >= LEAST && is_word(core, at + size, size) && word(core, at + size + CHUNK_HEAD, &next) && !(next & PREV_INUSE);
}

/* By the chunk's end: malloc has put the rest of a free chunk into a list, and after the rest there is still the size of the
 * whole; or realloc has the block before, the rest, its end and its head, and no list has the rest. */
static enum evidence evidence_of(struct core *core, const struct chain *chain, const struct thread *thread, uint64_t head)
{
    uint64_t at = chain->at, size = head & ~(uint64_t)FLAGS, end = at + size, next, now;

    if (!word(core, at + CHUNK_HEAD, &now) || (now & ~(uint64_t)FLAGS) == size || !word(core, end + CHUNK_HEAD, &next))
        return NONE;
    if (is_listed(core, at))
        return next & PREV_INUSE || is_whole(core, at, now & ~(uint64_t)FLAGS) ? NONE
            : is_word(core, end, end - chain->before) ? STRONG : WEAK;
    if ((head & FLAGS & ~NON_MAIN_ARENA) == PREV_INUSE && has(thread, end) && has_chunk(thread, chain->before)
        && !is_listed(core, chain->before))
        return STRONG;
    return next & PREV_INUSE ? NONE : WEAK;
}

/* What may be due where the chain is, by the register of a thread that has the address too: the size of a chunk. */
static enum evidence look(struct core *core, const struct chain *chain, const struct thread *thread, uint64_t head, struct due *due)
{
    uint64_t size = head & ~(uint64_t)FLAGS;

    if (size % ALIGNMENT || size < LEAST || size > chain->limit - chain->at)
        return NONE;
    *due = (struct due){ chain->at, size };
    return evidence_of(core, chain, thread, head);
}

/* What is surely due where the chain is. */
struct due due_at(struct heap *heap, const struct chain *chain)
{
    struct core *core = heap->core;
    struct held held = { 0 };
    struct due due;

    if (core->hints[hint_of(chain->at)] && chain->at < chain->limit)
        held = held_by(heap, chain->at);
    for (size_t i = 0; i < (held.end - held.at) * (size_t)REGISTERS; i++) {
        const struct thread *thread = core->threads + held.at[i / REGISTERS].thread;
        if (look(core, chain, thread, thread->words[i % REGISTERS], &due) == STRONG)
            return due;
    }
    return (struct due){ 0 };
}

/* Whether the chain ends well with something that may be due here; then that is the chain. */
static int try_here(struct heap *heap, struct chain *chain, enum evidence least)
{
    struct held held = { 0 };
    struct chain trial;

    if (chain->at < chain->limit)
        held = held_by(heap, chain->at);
    for (size_t i = 0; i < (held.end - held.at) * (size_t)REGISTERS; i++) {
        const struct thread *thread = heap->core->threads + held.at[i / REGISTERS].thread;
        trial = *chain;
        if (look(heap->core, chain, thread, thread->words[i % REGISTERS], &trial.due) < least)
            continue;
        trial = run_as_is(heap, trial);
        if (!ends_well(&trial))
            continue;
        *chain = trial;
        return 1;
    }
    return 0;
}

enum { MOST_PLACES = 32 };

/* The places of the chain that registers have. Gives how many there are: the last ones are kept, each at its number modulo
 * MOST_PLACES. */
static size_t find_places(struct heap *heap, struct chain chain, struct chain *places)
{
    struct chunk chunk;
    size_t count = 0;
    uint64_t before = chain.count;

    do
        if (heap->core->hints[hint_of(chain.at)])
            places[count++ % MOST_PLACES] = chain;
    while (next_chunk(heap->core, &chain, &chunk));
    take_steps(heap, chain.count - before, chain.at);
    return count;
}

/* The chain that begins so and breaks, with what may be due on its way, from the last place on, if it ends well with that;
 * else as it breaks. */
struct chain mended(struct heap *heap, const struct chain *start, const struct chain *broken)
{
    struct chain places[MOST_PLACES];
    size_t all = find_places(heap, *start, places), count = all < MOST_PLACES ? all : MOST_PLACES;

    for (size_t i = 0; i < 2 * count; i++) {
        struct chain *place = places + (all - 1 - i % count) % MOST_PLACES;
        if (try_here(heap, place, i < count ? STRONG : WEAK))
            return *place;
    }
    return *broken;
}
