/* A program that holds blocks by vector registers alone, to be looked at in a
 * core file.
 *
 * One block is held by the lower half of xmm6, one by the upper half of xmm15,
 * one by mm3, and, where the processor has AVX, one by the upper half of ymm8.
 * With the word `cleared` the last two registers are cleared again, so these
 * blocks are lost; with `dies` it ends by a signal and doesn't wait. As in
 * leaky.c each block has a size and a caller of its own, it is built without
 * optimization, and the stack is wiped before the program stops. */
#include <mcheck.h>
#include <stdio.h>
#include <stdlib.h>
#include <string.h>

enum { LOST = 45, BY_LOWER_HALF = 61, BY_UPPER_HALF = 77, BY_MMX = 93, BY_YMM = 109, FENCE = 125 };

struct held { void *volatile lower, *volatile upper, *volatile mmx, *volatile ymm; };

struct how { int dies, cleared, avx; };

/* One block, and nothing points to it. */
static void lose_a_block(void)
{
    calloc(1, LOST);
}

/* Overwrites the frames that the calls before left behind. */
static void wipe_stack(void)
{
    volatile char gone[16384];
    for (size_t i = 0; i < sizeof gone; i++)
        gone[i] = 0;
}

/* Loads the pointers, takes away their copies in memory and what general
 * registers may have of them, and stops for good: it dies, or waits. Nothing
 * from here on is C, since a compiler takes vector registers as it likes. */
static void stop(struct held *held, const struct how *how)
{
    __asm__ volatile(
        "movq (%%rdi), %%xmm6\n\t"
        "xorps %%xmm15, %%xmm15\n\t"
        "movhps 8(%%rdi), %%xmm15\n\t"
        "movq 16(%%rdi), %%mm3\n\t"
        "test %%edx, %%edx\n\t"
        "jz 1f\n\t"
        "vmovq 24(%%rdi), %%xmm8\n\t"
        "vperm2f128 $8, %%ymm8, %%ymm8, %%ymm8\n" /* to the upper half; the lower one is 0 */
        "1:\n\t"
        "test %%ecx, %%ecx\n\t"
        "jz 2f\n\t"
        "pxor %%mm3, %%mm3\n\t"
        "test %%edx, %%edx\n\t"
        "jz 2f\n\t"
        "vzeroupper\n"
        "2:\n\t"
        "movq $0, (%%rdi)\n\t"
        "movq $0, 8(%%rdi)\n\t"
        "movq $0, 16(%%rdi)\n\t"
        "movq $0, 24(%%rdi)\n\t"
        "xor %%eax, %%eax\n\t"
        "xor %%ebx, %%ebx\n\t"
        "xor %%ecx, %%ecx\n\t"
        "xor %%edx, %%edx\n\t"
        "xor %%edi, %%edi\n\t"
        "xor %%r8d, %%r8d\n\t"
        "xor %%r9d, %%r9d\n\t"
        "xor %%r10d, %%r10d\n\t"
        "xor %%r11d, %%r11d\n\t"
        "xor %%r12d, %%r12d\n\t"
        "xor %%r13d, %%r13d\n\t"
        "xor %%r14d, %%r14d\n\t"
        "xor %%r15d, %%r15d\n\t"
        "test %%esi, %%esi\n\t"
        "jz 3f\n\t"
        "ud2\n"
        "3:\n\t"
        "mov $34, %%eax\n\t" /* pause */
        "syscall\n\t"
        "jmp 3b"
        : : "D"(held), "S"((long)how->dies), "c"((long)how->cleared), "d"((long)how->avx) : "memory");
}

int main(int argc, char **argv)
{
    struct how how = { .avx = __builtin_cpu_supports("avx") != 0 };
    struct held held;
    for (int i = 1; i < argc; i++) {
        how.dies |= strcmp(argv[i], "dies") == 0;
        how.cleared |= strcmp(argv[i], "cleared") == 0;
    }
    mtrace();
    lose_a_block();
    held.lower = calloc(1, BY_LOWER_HALF);
    held.upper = calloc(1, BY_UPPER_HALF);
    held.mmx = calloc(1, BY_MMX);
    held.ymm = how.avx ? calloc(1, BY_YMM) : NULL;
    void *volatile fence = calloc(1, FENCE);
    wipe_stack();
    muntrace(); /* closes the log, so that all of it is in the file */
    fputs("ready\n", stderr);
    stop(&held, &how);
    return fence == NULL;
}
