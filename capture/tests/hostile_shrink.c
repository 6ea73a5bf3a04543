/* Preloaded: a file, which SHRINK names, becomes shorter once it is mapped, down to two pages. */
#define _GNU_SOURCE
#include <dlfcn.h>
#include <stdlib.h>
#include <sys/mman.h>
#include <unistd.h>

void *mmap(void *at, size_t size, int rights, int flags, int file, off_t offset)
{
    void *(*real)(void *, size_t, int, int, int, off_t) = dlsym(RTLD_NEXT, "mmap"), *mapped = real(at, size, rights, flags, file, offset);

    if (file >= 0 && truncate(getenv("SHRINK"), 8192))
        _exit(3);
    return mapped;
}
