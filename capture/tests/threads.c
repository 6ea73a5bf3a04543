/* Six threads that allocate and free; what a thread holds is in `slots`, set after malloc and cleared before free. Says "ready" when
 * all have lost what they lose. */
#include <pthread.h>
#include <stdatomic.h>
#include "lose.h"
enum { THREADS = 6, SLOTS = 512 };
struct slot { void *volatile block; volatile size_t size; } slots[THREADS][SLOTS];
static atomic_int losing = THREADS;
static void *work(void *which)
{
    struct slot *own = slots[(long)which];
    unsigned x = 1 + (unsigned)(long)which;
    for (int i = 0; i < 100; i++)
        LOSE(malloc(45 + 16 * (long)which));
    if (--losing == 0 && write(STDOUT_FILENO, "ready\n", 6) != 6)
        return NULL;
    for (;;) {
        x = x * 1664525 + 1013904223;
        struct slot *s = own + (x >> 16) % SLOTS;
        size_t size = 1 + (x >> 8) % 700;
        void *p = s->block;
        if (x & 0x80000000 && p) {
            s->block = NULL;
            p = realloc(p, size);
        } else {
            s->block = NULL;
            free(p);
            p = malloc(size);
        }
        s->size = size;
        s->block = p;
    }
    return NULL;
}
static void *brief(void *p) { free(malloc(100)); return p; }
int main(void)
{
    pthread_t t;
    for (long i = 0; i < THREADS; i++)
        pthread_create(&t, NULL, work, (void *)i);
    for (;;) {
        if (!pthread_create(&t, NULL, brief, NULL))
            pthread_join(t, NULL);
        usleep(1000);
    }
}
