/* The program that walk_step steps. By the first argument it takes its blocks from the main arena, or as a thread from one of its own; with
 * "sbrk" from the main arena while it takes memory by sbrk too; with "heaps" from a thread's arena that takes and gives back whole
 * heaps. It begins with malloc's first call in that arena if "fresh" is the last argument. */
#include "walk_step.h"
#include <malloc.h>

#define ORDERED() __asm__ volatile("" ::: "memory")
static long rounds, before_rounds = 3 * SLOTS;
static int takes_memory, takes_heaps;
enum { BIG_SLOTS = 4, LEAST_BIG = 20 << 20, MOST_MORE = 10 << 20, MOST_BIG = 32 << 20, MALLOC = 9 };
static unsigned draw(void)
{
    static unsigned x = 1;
    x = x * 1664525 + 1013904223;
    return x >> 8;
}
static size_t some_size(void)
{
    unsigned x = draw();
    switch (x % 16) {
    case 0: return 1000 + draw() % 4000;
    case 1: return draw() % 40 ? 3000 + draw() % 9000 : 150000;
    case 2: case 3: case 4: return draw() % 1000;
    case 5: case 6: case 7: case 8: return draw() % 300;
    default: return draw() % 120;
    }
}
/* Words that look like sizes of chunks: what was free may be cut where such a word is. */
static void fill(uint64_t *words, size_t size)
{
    enum { MOST = 100000, CHUNKS = 64, ALIGNMENT = 16 };
    for (size_t i = 0; size < MOST && i < size / sizeof *words; i++)
        words[i] = draw() % 3 ? draw() % CHUNKS * ALIGNMENT + draw() % 8 : 0;
}
static void *move(void *p, size_t old, size_t size)
{
    truth->moving = (struct block){ (uintptr_t)p, old < size ? old : size };
    ORDERED();
    p = realloc(p, size ? size : 1);
    ORDERED();
    truth->given.start = (uintptr_t)p;
    return p;
}
static void *replace(void *p, unsigned what, size_t size)
{
    free(p);
    if (what < 2) return NULL;
    if (what == 2) return memalign(64 << draw() % 4, size);
    if (what == 3) return memalign(PAGE_BYTES, size);
    return what == 4 ? calloc(1, size) : malloc(size);
}
static void change(struct block *slot, int moves, unsigned what, size_t size)
{
    struct block old = *slot;
    truth->moving = truth->given = (struct block){ 0 };
    slot->start = 0;
    ORDERED();
    truth->inside = 1;
    ORDERED();
    void *p = moves && old.start ? move((void *)old.start, old.size, size) : replace((void *)old.start, what, size);
    ORDERED();
    truth->inside = 0;
    if (p && draw() % 2) fill(p, size);
    if (takes_memory && draw() % 64 == 0) sbrk(PAGE_BYTES);
    slot->size = size;
    ORDERED();
    slot->start = (uintptr_t)p;
}
static void one(void)
{
    struct block *slot = truth->held + BIG_SLOTS + draw() % (SLOTS - BIG_SLOTS);
    unsigned what = draw() % 16;
    size_t size = what == 0 ? slot->size / 2 + draw() % 32 : what == 1 ? slot->size + draw() % 200 : some_size();
    change(slot, what < 6, draw() % 10, size);
}
/* Blocks of which two fill a heap of 64 MiB. They are not touched, and so not moved. */
static void one_big(void)
{
    struct block *slot = truth->held + draw() % BIG_SLOTS;
    change(slot, 0, slot->start ? 0 : MALLOC, LEAST_BIG + draw() % MOST_MORE);
}
static void *run(void *p)
{
    for (long i = 0; i < before_rounds; i++) one();
    raise(SIGSTOP);
    for (long i = 0; i < rounds; i++) takes_heaps && i % 8 != 7 ? one_big() : one();
    return p;
}
int main(int argc, char **argv)
{
    pthread_t thread;
    if (argc < 3) return 2;
    map_truth(0);
    rounds = atol(argv[2]);
    if (argc > 3) before_rounds = 0;
    takes_memory = !strcmp(argv[1], "sbrk");
    takes_heaps = !strcmp(argv[1], "heaps");
    mallopt(M_TRIM_THRESHOLD, 64 << 10);
    if (takes_heaps) mallopt(M_MMAP_THRESHOLD, MOST_BIG);
    if (!strcmp(argv[1], "main") || takes_memory) run(NULL);
    else if (pthread_create(&thread, NULL, run, NULL) || pthread_join(thread, NULL)) return 2;
    _exit(0);
}
