/* What the test programs share.  A lost block's size modulo 16 is 13, so that glibc's own pointers don't hide it. */
#include <poll.h>
#include <stdlib.h>
#include <string.h>
#include <unistd.h>
__attribute__((noinline, unused)) static void scrub(void)
{
    volatile char stack[65536];
    for (unsigned i = 0; i < sizeof stack; i++)
        stack[i] = 0;
}
/* Evaluates an allocation and forgets what it gives. */
#define LOSE(allocation) do { lose_one((void *)(allocation)); scrub(); } while (0)
__attribute__((noinline, unused)) static void lose_one(void *p)
{
    void *volatile forgotten = p;
    forgotten = NULL;
    (void)forgotten;
}
/* Functions of strings leave in vector registers eight bytes from the middle of two words, which may be an address within
 * a block. */
#define XMM "xmm0", "xmm1", "xmm2", "xmm3", "xmm4", "xmm5", "xmm6", "xmm7", "xmm8", "xmm9", "xmm10", "xmm11", "xmm12", \
    "xmm13", "xmm14", "xmm15"
#define ZERO(n) "vpxorq %%zmm" #n ", %%zmm" #n ", %%zmm" #n "\n\t"
__attribute__((unused)) static void clear_vectors(void)
{
    if (__builtin_cpu_supports("avx"))
        __asm__ volatile("vzeroall" ::: XMM);
    if (__builtin_cpu_supports("avx512f"))
        __asm__ volatile(ZERO(16) ZERO(17) ZERO(18) ZERO(19) ZERO(20) ZERO(21) ZERO(22) ZERO(23) ZERO(24) ZERO(25) ZERO(26)
            ZERO(27) ZERO(28) ZERO(29) ZERO(30) ZERO(31) "" ::: XMM);
}
__attribute__((unused)) static void rest(void)
{
    scrub();
    clear_vectors();
    for (;;)
        poll(NULL, 0, 1000);    /* its arguments leave no block in a register */
}
