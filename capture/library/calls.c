/* The calls of C that allocate and free. Each hands on to the next library that has it: glibc's own,
 * jemalloc's, mtrace's.
 *
 * A block is put into the table when the allocator has given it, and taken out before it is given back. */
#define _GNU_SOURCE
#include <dlfcn.h>
#include <errno.h>
#include <malloc.h>
#include <stdlib.h>
#include <string.h>

#include "../attach/island.h"
#include "trace.h"

#define CALLS(DO) DO(calloc) DO(realloc) DO(free) DO(memalign) DO(aligned_alloc) DO(posix_memalign) \
    DO(valloc) DO(pvalloc) DO(malloc)
#define REAL(call) static __typeof__(call) *real_##call;
CALLS(REAL)

/* Finds the real calls, malloc as the last. dlsym may allocate, and copes if it gets nothing. */
static int resolve(void)
{
    static __thread int resolving;

    if (resolving)
        return 0;
    resolving = 1;
#define FIND(call) atomic_thread_fence(memory_order_release), \
    real_##call = (__typeof__(call) *)dlsym(RTLD_NEXT, #call);
    CALLS(FIND)
    resolving = 0;
    return 1;
}

#define READY() (!UNLIKELY(!real_malloc) || resolve())

#define ALLOCATES(call, parameters, arguments, size)                                    \
    PUBLIC void *call parameters                                                        \
    {                                                                                   \
        if (!READY())                                                                   \
            return NULL;                                                                \
        void *block = real_##call arguments;                                            \
        ENTER();                                                                        \
        record(block, size, CALLER());                                                  \
        LEAVE();                                                                        \
        return block;                                                                   \
    }

ALLOCATES(malloc, (size_t size), (size), size)
ALLOCATES(calloc, (size_t count, size_t size), (count, size), count * size)
ALLOCATES(memalign, (size_t alignment, size_t size), (alignment, size), size)
ALLOCATES(aligned_alloc, (size_t alignment, size_t size), (alignment, size), size)
ALLOCATES(valloc, (size_t size), (size), size)
ALLOCATES(pvalloc, (size_t size), (size), size)

PUBLIC int posix_memalign(void **block, size_t alignment, size_t size)
{
    int error = READY() ? real_posix_memalign(block, alignment, size) : ENOMEM;

    ENTER();
    if (!error)
        record(*block, size, CALLER());
    LEAVE();
    return error;
}

/* A large block is a mapping of its own, which goes with all that it holds: it is not wiped. */
static void take_out_and_wipe(void *block)
{
    uint64_t copy[ENTRY_CALLERS + MAX_DEPTH];

    if (take_out((uintptr_t)block, copy) && copy[ENTRY_SIZE] < SMALL_BELOW)
        explicit_bzero(block, copy[ENTRY_SIZE]);
}

PUBLIC void free(void *block)
{
    if (!READY())
        return;
    ENTER();
    if (UNLIKELY(frees_wipe))
        take_out_and_wipe(block);
    else
        take_out((uintptr_t)block, NULL);
    LEAVE();
    real_free(block);
}

/* A failed realloc leaves the block as it was: its entry is written again, with the stamp that it had. */
static void *resize(void *block, size_t size, struct caller caller)
{
    uint64_t copy[ENTRY_CALLERS + MAX_DEPTH];

    if (!READY())
        return NULL;
    ENTER();
    int64_t was = set_aside((uintptr_t)block, copy);
    void *moved = real_realloc(block, size);
    if (!moved && size && was >= 0)
        insert(copy[ENTRY_START], copy[ENTRY_SIZE], copy[ENTRY_STAMP], copy + ENTRY_CALLERS,
               table.words - ENTRY_CALLERS);
    record(moved, size, caller);
    let_go(was);
    LEAVE();
    return moved;
}

PUBLIC void *realloc(void *block, size_t size)
{
    return resize(block, size, CALLER());
}

PUBLIC void *reallocarray(void *block, size_t count, size_t size)
{
    size_t bytes;

    if (__builtin_mul_overflow(count, size, &bytes)) {
        errno = ENOMEM;
        return NULL;
    }
    return resize(block, bytes, CALLER());
}

/* C23. */
PUBLIC void free_sized(void *block, size_t size);
PUBLIC void free_sized(void *block, size_t size)
{
    (void)size;
    free(block);
}

PUBLIC void free_aligned_sized(void *block, size_t alignment, size_t size);
PUBLIC void free_aligned_sized(void *block, size_t alignment, size_t size)
{
    (void)alignment, (void)size;
    free(block);
}

#ifdef ATTACHED
/* Takes the places where the real calls are, and gives those of this library. */
void take_calls(struct island *island)
{
#define TAKE(call) real_##call = (__typeof__(call) *)island->was[FUNCTION_##call], \
    island->hooks[FUNCTION_##call] = (uintptr_t)call;
    CALLS(TAKE)
}
#endif
