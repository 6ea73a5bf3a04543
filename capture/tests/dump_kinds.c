/* Threads that rest at known places, and memory of each kind with a word that is known: for leak_core. Prints where each is. dump_kinds [FILE]:
 * maps a file too. */
#define _GNU_SOURCE
#include <pthread.h>
#include <stdint.h>
#include <stdio.h>
#include <stdlib.h>
#include <string.h>
#include <sys/mman.h>
#include <sys/wait.h>
#include <unistd.h>

enum { PAGE = 4096, PAGES = 8 };

static const uint64_t MARK = 0x1122334455667788;
static volatile uint64_t half = 0x0123456789abcdef;

/* Memory of `PAGES` pages whose third alone is written. */
static char *make(const char *name, int flags)
{
    char *memory = mmap(NULL, PAGES * PAGE, PROT_READ | PROT_WRITE, flags, -1, 0);

    *(uint64_t *)(memory + 2 * PAGE) = MARK;
    printf("%s %p\n", name, memory + 2 * PAGE);
    fflush(stdout);     /* before a fork */
    return memory;
}

/* Shared memory that a child wrote, and the process did not touch: only root finds that it is there. */
static void let_child_write(void)
{
    char *memory = mmap(NULL, 64 * PAGE * PAGES, PROT_READ | PROT_WRITE, MAP_SHARED | MAP_ANONYMOUS, -1, 0);

    if (geteuid())
        return;
    if (!fork()) {
        *(uint64_t *)(memory + 32 * PAGE * PAGES) = MARK;
        _exit(0);
    }
    wait(NULL);
    printf("others %p\n", memory + 32 * PAGE * PAGES);
}

/* ymm8 gets a value of which each half is complemented in memory, and keeps it in its upper half while the thread rests. */
static void *hold_vector(void *unused)
{
    uint64_t value = ~half;

    __asm__ volatile("vmovq %0, %%xmm8\n\tvinserti128 $1, %%xmm8, %%ymm8, %%ymm8\n\tvpxor %%xmm9, %%xmm9, %%xmm9\n\t"
                     "vpblendd $0x0f, %%ymm9, %%ymm8, %%ymm8\n\txor %0, %0\n"
                     "0:\tmov $34, %%eax\n\tsyscall\n\tjmp 0b" /* pause() */
                     : "+r"(value) : : "rax", "rcx", "r11", "memory", "xmm8", "xmm9");
    return unused;
}

__attribute__((noinline)) static void rest_deep(int depth)
{
    if (depth)
        rest_deep(depth - 1);
    else
        pause();
    __asm__ volatile("");
}

static void *rest(void *depth)
{
    rest_deep((long)depth);
    return NULL;
}

int main(int count, char **words)
{
    pthread_t thread;
    char *file;

    make("private", MAP_PRIVATE | MAP_ANONYMOUS);
    make("shared", MAP_SHARED | MAP_ANONYMOUS);
    let_child_write();
    madvise(make("dontdump", MAP_PRIVATE | MAP_ANONYMOUS), PAGES * PAGE, MADV_DONTDUMP);
    mprotect(make("readonly", MAP_PRIVATE | MAP_ANONYMOUS), PAGES * PAGE, PROT_READ);
    mprotect(make("none", MAP_PRIVATE | MAP_ANONYMOUS), PAGES * PAGE, PROT_NONE);
    /* Memory that was only read shows the kernel's page of zeros, even if its pages are huge. */
    char *zeros = mmap(NULL, 64 << 20, PROT_READ | PROT_WRITE, MAP_PRIVATE | MAP_ANONYMOUS | MAP_NORESERVE, -1, 0);
    madvise(zeros, 32 << 20, MADV_HUGEPAGE);
    for (int i = 0; i < 64 << 20; i += PAGE)
        if (zeros[i])
            abort();
    printf("zeros %p\n", zeros + PAGE);
    FILE *self = fopen("/proc/self/exe", "re");
    file = mmap(NULL, 2 * PAGE, PROT_READ | PROT_WRITE, MAP_PRIVATE, fileno(self), 0);
    *(uint64_t *)(file + PAGE) = MARK;
    printf("file %p\n", file + PAGE);
    if (count > 1 && mmap(NULL, PAGE, PROT_READ, MAP_SHARED, fileno(fopen(words[1], "re")), 0) == MAP_FAILED)
        abort();
    for (long i = 1; i < 4; i++)
        pthread_create(&thread, NULL, rest, (void *)i);
    if (__builtin_cpu_supports("avx2"))
        pthread_create(&thread, NULL, hold_vector, NULL);
    printf("ready\n");
    fflush(stdout);
    rest_deep(5);
}
