/* An allocator that may be called in a signal handler: places of 1 KiB on a lock-free stack, all else from a heap of
 * 16 MiB that is never used again. */
#include <stdatomic.h>
#include <stddef.h>
#include <stdint.h>
#include <string.h>
enum { PLACES = 4096, PLACE = 1024, HEAP = 1 << 24 };
static _Alignas(4096) char places[PLACES][PLACE], heap[HEAP];
static uint32_t sizes[PLACES];
static _Atomic uint32_t next[PLACES], fresh;
static _Atomic uint64_t top;            /* a count of uses, and a place's number plus 1 */
static _Atomic size_t used;
static long place_of(void *p) { return (char *)p >= places[0] && (char *)p < places[PLACES] ? ((char *)p - places[0]) / PLACE : -1; }
void *memalign(size_t a, size_t n)
{
    if (n <= PLACE && a <= PLACE) {
        uint64_t old = top;
        uint32_t i;
        while ((i = (uint32_t)old) && !atomic_compare_exchange_weak(&top, &old, ((old >> 32) + 1) << 32 | next[i - 1]))
            ;
        if (i || (i = 1 + fresh++) <= PLACES)
            return sizes[i - 1] = n, places[i - 1];
    }
    size_t at = atomic_fetch_add(&used, n + a);
    return at + n + a > HEAP ? NULL : heap + ((at + a - 1) & ~(a - 1));
}
void free(void *p)
{
    long i = place_of(p);
    uint64_t old = top;
    if (i >= 0)
        do
            next[i] = (uint32_t)old;
        while (!atomic_compare_exchange_weak(&top, &old, ((old >> 32) + 1) << 32 | (uint32_t)(i + 1)));
}
void *malloc(size_t n) { return memalign(16, n); }
void *calloc(size_t k, size_t n) { void *p = malloc(k * n); return p ? memset(p, 0, k * n) : p; }
void *realloc(void *p, size_t n)
{
    void *q = malloc(n);
    long i = place_of(p);
    if (p && q) memcpy(q, p, i >= 0 && sizes[i] < n ? sizes[i] : n);
    free(p);
    return q;
}
void *aligned_alloc(size_t a, size_t n) { return memalign(a, n); }
void *valloc(size_t n) { return memalign(4096, n); }
void *pvalloc(size_t n) { return memalign(4096, n); }
int posix_memalign(void **p, size_t a, size_t n) { *p = memalign(a, n); return 0; }
