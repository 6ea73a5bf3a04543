/* expect: 56 88 120 152 184 216 248 280 */
/* Four threads that allocate and free, then lose blocks of which one holds another, and rest. Sizes are such that malloc gives no more
 * than was asked, and all blocks are cleared: a stale word in one might lead to what is lost. With `later` as argument it reads a
 * line, frees and allocates, and loses more: 312, 344, 376, 408. */
#include <pthread.h>
#include <stdio.h>
#include "lose.h"
enum { THREADS = 4, HELD = 1000 };
static void *volatile held[THREADS][HELD];
static pthread_barrier_t barrier;
static void **pair(size_t size)
{
    void **head = calloc(1, size + 32);
    *head = calloc(1, size);
    return head;
}
static void churn(long which, unsigned x)
{
    for (int i = 0; i < 20 * HELD; i++) {
        x = x * 1664525 + 1013904223;
        void *volatile *p = held[which] + (x >> 8) % HELD;
        free(*p);
        *p = calloc(1, 24 + 16 * ((x >> 20) % 200));
    }
}
static void *work(void *which)
{
    churn((long)which, 1 + (unsigned)(long)which);
    LOSE(pair(56 + 64 * (long)which));
    pthread_barrier_wait(&barrier);
    rest();
    return NULL;
}
int main(int argc, char **argv)
{
    pthread_t t;
    char line[8];
    (void)argv;
    pthread_barrier_init(&barrier, NULL, THREADS + 1);
    for (long i = 0; i < THREADS; i++)
        if (pthread_create(&t, NULL, work, (void *)i)) return 1;
    pthread_barrier_wait(&barrier);
    scrub();
    if (argc > 1) {
        if (read(0, line, sizeof line) <= 0) return 1;
        churn(0, 99);
        LOSE(pair(312));
        LOSE(pair(376));
    }
    rest();
}
