/* Preloaded: writes to the file that MEMORY names the most bytes that the program had from malloc at once. While realloc moves a block it has
 * two. */
#include <malloc.h>
#include <stdio.h>
#include <stdlib.h>
void *__libc_malloc(size_t size);
void *__libc_calloc(size_t count, size_t size);
void *__libc_realloc(void *p, size_t size);
void __libc_free(void *p);
static size_t now, most;
static void *taken(void *p)
{
    now += malloc_usable_size(p);
    most = most > now ? most : now;
    return p;
}
void *malloc(size_t size) { return taken(__libc_malloc(size)); }
void *calloc(size_t count, size_t size) { return taken(__libc_calloc(count, size)); }
void free(void *p)
{
    now -= malloc_usable_size(p);
    __libc_free(p);
}
void *realloc(void *p, size_t size)
{
    size_t old = malloc_usable_size(p);
    void *moved = __libc_realloc(p, size);
    if (!moved && size) return NULL;
    now -= moved == p ? old : 0;
    taken(moved);
    now -= moved == p ? 0 : old;
    return moved;
}
__attribute__((destructor)) static void tell(void)
{
    size_t bytes = most;
    FILE *file = fopen(getenv("MEMORY"), "w");
    if (file) fprintf(file, "%zu\n", bytes), fclose(file);
}
