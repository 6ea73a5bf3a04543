/* Preloaded between leak_trace.so and libc_malloc_debug.so.0: calls mtrace(), and hands each call on to the latter,
 * whose symbols dlsym doesn't find without their version. */
#define _GNU_SOURCE
#include <dlfcn.h>
#include <mcheck.h>
#include <stddef.h>
__attribute__((constructor)) static void on(void) { mtrace(); }
#define ON(type, name, version, parameters, arguments)                      \
    type name parameters                                    \
    {                                           \
        static type (*real) parameters;                         \
        if (!real) real = dlvsym(RTLD_NEXT, #name, version);                \
        return real arguments;                              \
    }
#define V "GLIBC_2.2.5"
ON(void *, malloc, V, (size_t n), (n))
ON(void *, calloc, V, (size_t k, size_t n), (k, n))
ON(void *, realloc, V, (void *p, size_t n), (p, n))
ON(void, free, V, (void *p), (p))
ON(void *, memalign, V, (size_t a, size_t n), (a, n))
ON(void *, aligned_alloc, "GLIBC_2.16", (size_t a, size_t n), (a, n))
ON(int, posix_memalign, V, (void **p, size_t a, size_t n), (p, a, n))
ON(void *, valloc, V, (size_t n), (n))
ON(void *, pvalloc, V, (size_t n), (n))
