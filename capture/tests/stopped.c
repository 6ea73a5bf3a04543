/* An allocator in front of glibc's, and whose realloc rests before it returns. */
#define _GNU_SOURCE
#include <dlfcn.h>
#include <poll.h>
#include <stddef.h>
void *realloc(void *block, size_t size)
{
    void *(*real)(void *, size_t) = (void *(*)(void *, size_t))dlsym(RTLD_NEXT, "realloc");
    void *volatile moved = real(block, size);
    if (size == 2900)
        for (;;)
            poll(NULL, 0, 1000);
    return moved;
}
