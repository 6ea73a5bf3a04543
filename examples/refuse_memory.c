/* A preloaded library that refuses one allocation of a program: the one that REFUSE numbers, counted from 1 over malloc, calloc, realloc,
   aligned_alloc, memalign and posix_memalign. It says on standard error when it does. */

#define _GNU_SOURCE
#include <dlfcn.h>
#include <errno.h>
#include <malloc.h>
#include <stdatomic.h>
#include <stddef.h>
#include <stdint.h>
#include <stdlib.h>
#include <unistd.h>

extern void *__libc_malloc(size_t size);
extern void *__libc_calloc(size_t count, size_t size);
extern void *__libc_realloc(void *block, size_t size);
extern void *__libc_memalign(size_t alignment, size_t size);

static atomic_ulong made;
static unsigned long refused_number;
static int is_counting;

__attribute__((constructor)) static void start(void)
{
    const char *number = getenv("REFUSE");
    refused_number = number ? strtoul(number, NULL, 10) : 0;
    is_counting = 1;
}

/* Whether this allocation is the one to be refused. */
static int refuses(void)
{
    if (!is_counting || atomic_fetch_add(&made, 1) + 1 != refused_number)
        return 0;
    (void)!write(2, "refused\n", 8);
    errno = ENOMEM;
    return 1;
}

void *malloc(size_t size)
{
    return refuses() ? NULL : __libc_malloc(size);
}

void *calloc(size_t count, size_t size)
{
    return refuses() ? NULL : __libc_calloc(count, size);
}

void *realloc(void *block, size_t size)
{
    return refuses() ? NULL : __libc_realloc(block, size);
}

void *memalign(size_t alignment, size_t size)
{
    return refuses() ? NULL : __libc_memalign(alignment, size);
}

void *aligned_alloc(size_t alignment, size_t size)
{
    return refuses() ? NULL : __libc_memalign(alignment, size);
}

int posix_memalign(void **block, size_t alignment, size_t size)
{
    if (refuses())
        return ENOMEM;
    *block = __libc_memalign(alignment, size);
    return *block ? 0 : ENOMEM;
}
