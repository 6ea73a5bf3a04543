/* Six threads that free each other's blocks, as fast as they can; then the program looks itself up in its table. */
#include <fcntl.h>
#include <pthread.h>
#include <stdatomic.h>
#include <stdint.h>
#include <stdio.h>
#include <sys/mman.h>
#include "../table.h"
#include "lose.h"
enum { THREADS = 6, SLOTS = 4096, ROUNDS = 1000000 };
static void *_Atomic slots[SLOTS];
static void *work(void *which)
{
    unsigned x = 1 + (unsigned)(uintptr_t)which;
    for (int i = 0; i < ROUNDS; i++) {
        x = x * 1664525 + 1013904223;
        size_t size = 8 + (x >> 8) % (x & 0x10000 ? 40 : 3000);
        void *p = x >> 31 ? malloc(size) : realloc(atomic_exchange(slots + (x >> 12) % SLOTS, NULL), size);
        *(size_t *)p = size;
        free(atomic_exchange(slots + (x >> 18) % SLOTS, p));
    }
    return NULL;
}
int main(int argc, char **argv)
{
    pthread_t t[THREADS];
    char name[4096];
    long held = 0, wrong = 0, listed = 0;
    for (long i = 0; i < THREADS; i++) pthread_create(t + i, NULL, work, (void *)i);
    for (long i = 0; i < THREADS; i++) pthread_join(t[i], NULL);
    snprintf(name, sizeof name, "%s.%d", argv[argc - 1], (int)getpid());
    int fd = open(name, O_RDONLY);
    struct table_head *h = mmap(NULL, 1 << 26, PROT_READ, MAP_SHARED, fd, 0);
    if (h == MAP_FAILED) return perror(name), 1;
    size_t words = ENTRY_CALLERS + h->depth;
    uint64_t *first = (uint64_t *)((char *)h + HEAD_BYTES);
    for (uint64_t i = 0; i < h->used; i++) listed += first[i * words] != 0;
    for (int k = 0; k < SLOTS; k++) {
        size_t *p = slots[k];
        int times = 0;
        for (uint64_t i = 0; p && i < h->used; i++)
            times += first[i * words] == ~(uintptr_t)p && first[i * words + ENTRY_SIZE] == ~*p;
        held += p != NULL, wrong += p && times != 1;
    }
    printf("wrong %ld others %s missed %lu\n", wrong, listed - held < 20 ? "few" : "many", (long)h->missed);
    fprintf(stderr, "held %ld listed %ld entries %lu\n", held, listed, (long)h->used);
}
