/* Drops one free() in DROP_FREE at random, after the first DROP_AFTER: the block stays as it was when the program gave
 * it back, as if the call had been forgotten. It stands before leak_trace.so in LD_PRELOAD, which so never hears of
 * that call. With -DFREE=myfree it drops calls of a program's own function, as one that writes over blocks first. */
#define _GNU_SOURCE
#include <dlfcn.h>
#include <stdlib.h>

#ifndef FREE
#define FREE free
#endif
#define TEXT_OF(name) #name
#define NAME_OF(name) TEXT_OF(name)

static void (*next)(void *);
static unsigned long calls, every, after, state = 88172645463325252;

__attribute__((constructor)) static void start(void)
{
    const char *one_in = getenv("DROP_FREE"), *first = getenv("DROP_AFTER");

    every = one_in ? strtoul(one_in, NULL, 10) : 0;
    after = first ? strtoul(first, NULL, 10) : 0;
}

void FREE(void *block)
{
    if (!block)
        return;
    if (!next)
        next = (void (*)(void *))dlsym(RTLD_NEXT, NAME_OF(FREE));
    if (every && ++calls > after) {
        state ^= state << 13, state ^= state >> 7, state ^= state << 17; /* a race only makes it more random */
        if (state % every == 0)
            return;
    }
    next(block);
}
