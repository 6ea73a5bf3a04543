/* Threads that allocate, move and free without end, as many as the first argument says. Sizes are as many times larger as the second says;
 * then each thread frees all it has now and then, so that its arena takes heaps and gives them back. */
#include <malloc.h>
#include <pthread.h>
#include <stdint.h>
#include "lose.h"
enum { SLOTS = 2000, MOST_THREADS = 64 };
enum { CYCLE = 8192 };
static void *volatile held[MOST_THREADS][SLOTS];
static long scale = 1;
static void free_all(void *volatile *own)
{
    for (int i = 0; i < SLOTS; i++) {
        free(own[i]);
        own[i] = NULL;
    }
}
static void *work(void *which)
{
    void *volatile *own = held[(long)which];
    unsigned x = 1 + (unsigned)(long)which;
    for (long n = 1;; n++) {
        x = x * 1664525 + 1013904223;
        void *volatile *slot = own + (x >> 8) % SLOTS;
        size_t size = scale * ((x & 7) ? (x >> 20) % 600 : (x & 0x3f0) ? (x >> 12) % 9000 : (x >> 8) % 400000);
        if (scale > 1 && n % CYCLE == 0)
            free_all(own);
        void *p = *slot;
        if (x >> 30 == 0)
            p = realloc(p, size + 1);
        else if (x >> 30 == 1)
            free(p), p = NULL;
        else
            free(p), p = x >> 29 & 1 && size < 9000 ? memalign(64, size) : malloc(size);
        if (p)
            *(volatile char *)p = 1;
        *slot = p;
    }
    return NULL;
}
static void *brief(void *p) { free(malloc(100)); return p; }
int main(int argc, char **argv)
{
    pthread_t t;
    long threads = argc > 1 ? atoi(argv[1]) : 8;
    scale = argc > 2 ? atoi(argv[2]) : 1;
    for (long i = 0; i < threads && i < MOST_THREADS; i++)
        if (pthread_create(&t, NULL, work, (void *)i)) return 1;
    for (;;) {
        if (!pthread_create(&t, NULL, brief, NULL))
            pthread_join(t, NULL);
        usleep(1000);
    }
}
