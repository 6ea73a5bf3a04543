/* Loses 600 blocks of 24 sizes among 40,000 that are held, of which others are freed, and writes down the lost ones' addresses. Some sizes
 * fill the places that allocators have, and some don't. */
#include <stdio.h>
#include "lose.h"
#ifdef ALLOCATOR
/* A library by no known name that lays blocks side by side, and frees nothing. */
static _Alignas(16) char heap[1 << 27], *next = heap;
void *malloc(size_t n) { char *p = next; next += (n + 15) & ~15ul; return p; }
void free(void *p) { (void)p; }
void *calloc(size_t k, size_t n) { return malloc(k * n); }
void *realloc(void *p, size_t n) { void *q = malloc(n); if (p) memcpy(q, p, n); return q; }
#else
static const unsigned short sizes[] = { 16, 24, 32, 45, 48, 61, 64, 77, 80, 96, 100, 112, 125, 128, 160, 192, 200, 256, 320, 384, 448, 512, 1000, 1024 };
enum { SIZES = sizeof sizes / sizeof *sizes, EACH = 25, HELD = 40000 };
static void *volatile held[HELD];
__attribute__((noinline)) static void write_down(FILE *f, void *p) { fprintf(f, "%#lx\n", (long)p); }
int main(int argc, char **argv)
{
    FILE *f = argc > 1 ? fopen(argv[1], "w") : NULL;
    unsigned x = 1;
    if (!f) return 1;
    for (int i = 0; i < HELD; i++) {
        x = x * 1664525 + 1013904223;
        held[i] = calloc(1, sizes[(x >> 16) % SIZES]);
        if (i % 3 == 0) { int k = (x >> 8) % (i + 1); free(held[k]); held[k] = NULL; }
        if (i % (HELD / EACH) == 7)
            for (int s = 0; s < SIZES; s++) {
                void *p = malloc(sizes[s]);
                write_down(f, p);
                lose_one(p);
                p = NULL;
                scrub();
            }
    }
    fclose(f);
    rest();
}
#endif
