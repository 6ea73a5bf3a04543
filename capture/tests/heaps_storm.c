/* heaps_storm THREADS SLOTS ROUNDS SEED [LEAKS]: threads that allocate and free at random, and what is live at a fixed
 * place of memory, from which a core tells it. Without rounds it goes on until it is killed; else it rests after as
 * many, and says `ready`. With LEAKS, as many blocks are lost in pairs, of which the first leads to the second, and
 * the slots hold what they have; else all addresses are complemented, so that nothing leads to a block. With LEAKS and
 * without rounds as many threads are stopped, each in a handler of a signal, while the others go on. */
#define _GNU_SOURCE
#include <malloc.h>
#include <pthread.h>
#include <signal.h>
#include <stdatomic.h>
#include <stdint.h>
#include <stdlib.h>
#include <string.h>
#include <sys/mman.h>
#include <unistd.h>

enum { HANDS = 256, MOST_THREADS = 64, MOST_LEAKS = 4000, BRIEF = 200, BRIEF_THREADS = 4, BRIEF_TURNS = 20,
       LETTERS = 8192 };

struct slot {
    _Atomic uint64_t address;
    uint64_t asked, usable, unused;
};

/* heaps_truth.py reads this. */
static struct truth {
    uint64_t slot_count, is_plain;
    _Atomic uint64_t leak_count;
    uint64_t unused;
    _Atomic uint64_t hands[HANDS];      /* what a thread allocates or frees just now, complemented */
    struct {
        uint64_t address, usable;       /* complemented */
    } leaks[MOST_LEAKS];
    struct slot slots[];
} *truth;

static uint64_t rounds, leaks_each, none, busy;
static pthread_barrier_t rest;
static char *letters;       /* as jemalloc begins a thread's stack of free blocks */

static uint64_t told(void *block) { return truth->is_plain ? (uint64_t)block : ~(uint64_t)block; }

static uint64_t drawn(uint64_t *seed)
{
    *seed ^= *seed << 13;
    *seed ^= *seed >> 7;
    return *seed ^= *seed << 17;
}

static size_t size_of(uint64_t *seed)
{
    uint64_t kind = drawn(seed) % 10000, size = drawn(seed);

    if (kind < 8600)
        return 1 + size % 1024;
    if (kind < 9800)
        return 1 + size % 16384;
    return 1 + size % (kind < 9970 ? 262144 : kind < 9998 ? 1048576 : 8388608);
}

static void fill(void *block, size_t size) { memset(block, 0x55, size < 512 ? size : 512); }

static void *block_of(uint64_t *seed, size_t size)
{
    uint64_t kind = drawn(seed) % 16;
    void *block;

    if (kind == 0)
        return calloc(1, size);
    if (kind > 1)
        return malloc(size);
    if (posix_memalign(&block, (size_t)16 << drawn(seed) % 9, size))
        abort();
    return block;
}

/* Puts the block into the slot, or frees it if another thread was first. */
static void put(struct slot *slot, void *block, size_t size)
{
    uint64_t wanted = none;

    fill(block, size);
    if (atomic_compare_exchange_strong(&slot->address, &wanted, busy)) {
        slot->asked = size;
        slot->usable = malloc_usable_size(block);
        slot->address = told(block);
    } else {
        free(block);
    }
}

static void turn(struct slot *slot, _Atomic uint64_t *hand, uint64_t *seed)
{
    uint64_t old = slot->address;
    size_t size = size_of(seed);
    void *block;

    if (old == busy || (old != none && !atomic_compare_exchange_strong(&slot->address, &old, none)))
        return;
    block = old == none ? block_of(seed, size) : truth->is_plain ? (void *)old : (void *)~old;
    *hand = ~(uint64_t)block;
    if (old != none && drawn(seed) % 8) {
        free(block);
    } else {
        if (old != none) {
            block = realloc(block, size);
            *hand = ~(uint64_t)block;
        }
        put(slot, block, size);
    }
    *hand = 0;
}

static void *lost(uint64_t index, size_t size)
{
    void *block = malloc(size);

    memset(block, 0x55, size);
    truth->leaks[index].usable = ~(uint64_t)malloc_usable_size(block);
    truth->leaks[index].address = ~(uint64_t)block;
    return block;
}

static void lose(uint64_t *seed)
{
    size_t head = 8 + drawn(seed) % (drawn(seed) % 20 ? 600 : 100000), child = 8 + drawn(seed) % (drawn(seed) % 50 ? 3000 : 1000000);
    uint64_t index = atomic_fetch_add(&truth->leak_count, 2);

    *(void **)lost(index, head) = lost(index + 1, child);
}

static void *storm(void *argument)
{
    uint64_t number = (uintptr_t)argument & 0xffff, seed = (uintptr_t)argument * 0x9e3779b97f4a7c15 | 1, left = leaks_each;

    for (uint64_t i = 0; !rounds || i < rounds; i++) {
        if (left && i % (rounds / leaks_each) == 0) {
            left--;
            lose(&seed);
        }
        turn(truth->slots + drawn(&seed) % truth->slot_count, truth->hands + number, &seed);
    }
    return NULL;
}

/* Leaves nothing on the stack below. */
static void wipe(void)
{
    volatile char stack[20000];

    memset((char *)stack, 0, sizeof stack);
}

static void *storm_and_rest(void *argument)
{
    storm(argument);
    wipe();
    pthread_barrier_wait(&rest);
    pause();
    return NULL;
}

/* A thread that ends, with what it allocated freed. */
static void *brief(void *argument)
{
    uint64_t seed = (uintptr_t)argument | 1;
    void *blocks[BRIEF];

    for (int i = 0; i < BRIEF; i++)
        blocks[i] = malloc(1 + drawn(&seed) % 4000);
    for (int i = 0; i < BRIEF; i++)
        free(blocks[i]);
    return NULL;
}

static void run_brief_ones(int turn)
{
    pthread_t threads[BRIEF_THREADS];

    for (uintptr_t i = 0; i < BRIEF_THREADS; i++)
        pthread_create(threads + i, NULL, brief, (void *)(turn * BRIEF_THREADS + i));
    for (int i = 0; i < BRIEF_THREADS; i++)
        pthread_join(threads[i], NULL);
    usleep(3000);
}

static void wait_forever(int signal)
{
    (void)signal;
    for (;;)
        pause();
}

/* What a thread has half done in the allocator stays so. */
static void stop(const pthread_t *threads, uintptr_t count)
{
    usleep(200000);
    signal(SIGUSR1, wait_forever);
    for (uintptr_t i = 0; i < count; i++, usleep(5000))
        pthread_kill(threads[i], SIGUSR1);
}

int main(int count, char **words)
{
    uintptr_t threads = atol(words[1]), slots = atol(words[2]), seed = atol(words[4]), leaks = count > 5 ? atol(words[5]) : 0;
    pthread_t thread[MOST_THREADS];

    rounds = atol(words[3]);
    leaks_each = rounds ? leaks / 2 / threads : 0;
    truth = mmap((void *)0x100000000000, sizeof *truth + slots * sizeof *truth->slots, PROT_READ | PROT_WRITE,
                 MAP_PRIVATE | MAP_ANONYMOUS | MAP_FIXED_NOREPLACE, -1, 0);
    truth->slot_count = slots;
    truth->is_plain = leaks_each > 0;
    none = told(NULL), busy = told((void *)8);
    for (uintptr_t i = 0; i < slots; i++)
        truth->slots[i].address = none;
    pthread_barrier_init(&rest, NULL, threads + 1);
    if (posix_memalign((void **)&letters, 4096, LETTERS))
        abort();
    memset(letters, 'z', LETTERS);
    for (uintptr_t i = 1; i <= threads; i++)
        pthread_create(thread + i, NULL, storm_and_rest, (void *)(i + (seed << 16)));
    if (!rounds)
        stop(thread + 1, leaks);
    for (int i = 0; !rounds || i < BRIEF_TURNS; i++)
        run_brief_ones(i);
    pthread_barrier_wait(&rest);
    wipe();
    write(1, "ready\n", 6);
    for (;;)
        pause();
}
