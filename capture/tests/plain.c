/* expect: 29 45 61 77 93 109 125 141 157 173 189 205 */
#define _GNU_SOURCE
#include <malloc.h>
#include "lose.h"
static void *volatile held[16];
__attribute__((noinline)) static void work(void)
{
    void *p;
    LOSE(malloc(45));
    held[0] = malloc(45);
    LOSE(calloc(1, 61));
    LOSE(realloc(NULL, 77));
    LOSE(realloc(malloc(1000), 93));
    held[1] = realloc(malloc(1000), 5000);
    LOSE(memalign(64, 109));
    LOSE(aligned_alloc(64, 125));
    if (!posix_memalign(&p, 4096, 141)) { LOSE(p); p = NULL; }
    LOSE(valloc(157));
    LOSE(pvalloc(173));
    LOSE(reallocarray(NULL, 27, 7));
    LOSE(strdup("12345678901234567890123456789012345678901234567890123456789012345678901234567890123456789012345678901234567890123456789012345678901234567890123456789012345678901234567890123456789012345678901234567890abcd"));
    for (int i = 0; i < 10000; i++) free(malloc(i));
    held[2] = malloc(1 << 20);
    free(realloc(malloc(10), 0));
    held[3] = realloc(malloc(29), (size_t)-1 >> 1); /* fails, and loses what is live still */
}
int main(void) { work(); rest(); }
