/* The gate: code that runs in the process until the library is there. It is copied into the island as it is, so it refers to
 * nothing but itself, and calls nothing but what the island names.
 *
 * A call of malloc, free, calloc or realloc that comes from the program's own code, and not from libc or ld.so, is a place where
 * a program may call dlopen: no lock of malloc or of ld.so is held there. Below a signal's handler that is not so: what it
 * interrupted may hold any lock. Nor is it below dl_iterate_phdr, which holds the second of the two locks that dlopen takes. So the
 * stack is searched for frames of both. */
#define _GNU_SOURCE
#include <dlfcn.h>
#include <fcntl.h>
#include <pthread.h>
#include <signal.h>
#include <stddef.h>
#include <sys/mman.h>
#include <sys/resource.h>
#include <sys/syscall.h>
#include <sys/uio.h>

#include "island.h"

#define GATE __attribute__((section("gate"), used))
#define MASK_WORDS 16

enum { PIECE = 4096, MOST_STACK = 16 << 20, TEXT_BYTES = 256, FRAME_WORDS = 25 };

/* A system call, whose sixth argument is 0. */
GATE static long ask(long number, long a, long b, long c, long d, long e)
{
    long result;
    register long r10 __asm__("r10") = d, r8 __asm__("r8") = e, r9 __asm__("r9") = 0;

    __asm__ volatile("syscall" : "=a"(result) : "a"(number), "D"(a), "S"(b), "d"(c), "r"(r10), "r"(r8), "r"(r9)
                     : "rcx", "r11", "memory");
    return result;
}

/* The thread's own record, which lies above its stack, but for that of the first thread. */
GATE static uint64_t own_record(void)
{
    uint64_t record;

    __asm__("mov %%fs:16, %0" : "=r"(record));
    return record;
}

/* Reads words of the stack, by the kernel: nobody knows where it ends. Gives how many bytes. */
GATE static long read_stack(const struct island *i, uint64_t at, uint64_t *words, uint64_t size)
{
    struct iovec here = { words, size }, there = { (void *)at, size };

    return ask(SYS_process_vm_readv, i->process, (long)&here, 1, (long)&there, 1);
}

/* Whether a signal's frame begins there, or what is left of one (Linux, struct rt_sigframe: flags and link of the context, then the stack
 * pointer that was interrupted, and cs). */
GATE static int is_frame(const struct island *i, uint64_t at)
{
    uint64_t words[FRAME_WORDS];

    return read_stack(i, at, words, sizeof words) == sizeof words && words[1] <= 255 && !words[2] && words[21] && (words[24] & 0xffff) == 0x33;
}

GATE static int is_in_the_way(const struct island *i, uint64_t at, uint64_t word)
{
    return (word == i->handler_end && is_frame(i, at)) || (word >= i->iterating[0] && word < i->iterating[1]);
}

/* Whether neither a signal's handler nor dl_iterate_phdr is on the stack. */
GATE static int is_free(const struct island *i, uint64_t stack)
{
    uint64_t words[PIECE / 8], at = stack & ~7ull, record = own_record(), end = at + MOST_STACK;
    int is_bounded = record > at && record < end;

    for (uint64_t next; at < end; at = next) {
        uint64_t size = PIECE - at % PIECE;
        if (is_bounded && size > record - at)
            size = record - at;
        long got = size ? read_stack(i, at, words, size) : 0;
        for (long k = 0; k < got / 8; k++)
            if (is_in_the_way(i, at + 8 * k, words[k]))
                return 0;
        next = at + size;
        if (got != (long)size || !size)
            return at > (stack & ~7ull) || got > 0;     /* the stack's end, if anything could be read */
    }
    return 0;
}

/* Hands the library's bytes to the kernel, and gives the descriptor, or an error below 0. A limit of files would end in a signal. */
GATE static long write_library(const struct island *i)
{
    struct rlimit limit;
    const char *bytes = (const char *)i + ISLAND_LIBRARY;
    long file, got = 0;

    if (ask(SYS_prlimit64, 0, RLIMIT_FSIZE, 0, (long)&limit, 0) || limit.rlim_cur < i->library_bytes)
        return -1;
    file = ask(SYS_memfd_create, (long)i->symbol, MFD_CLOEXEC, 0, 0, 0);
    for (uint64_t done = 0; file >= 0 && done < i->library_bytes; done += got)
        if ((got = ask(SYS_write, file, (long)(bytes + done), i->library_bytes - done, 0, 0)) <= 0) {
            ask(SYS_close, file, 0, 0, 0, 0);
            return -1;
        }
    return file;
}

/* Adds the file's number to the name of its folder. A library of that name may be loaded already, but not from the same file. */
GATE static void write_path(char *path, long file)
{
    int at = 0, digits = 1;

    while (path[at])
        at++;
    for (long rest = file; rest >= 10; rest /= 10)
        digits++;
    path[at + digits] = 0;
    for (volatile int k = digits; k--; file /= 10)
        path[at + k] = '0' + file % 10;
}

GATE static void tell_error(struct island *i, const char *why)
{
    for (volatile int k = 0; why && k < TEXT_BYTES - 1 && why[k]; k++)
        i->error[k] = why[k];
}

/* Loads the library, unless it is there from an earlier time. */
GATE static void open_library(struct island *i)
{
    long file = write_library(i);

    if (file < 0)
        return;
    write_path(i->path, file);
    void *library = i->dlopen(i->path, RTLD_NOW | RTLD_NODELETE);
    ask(SYS_close, file, 0, 0, 0, 0);
    if (library)
        i->start = (int (*)(struct island *))i->dlsym(library, i->symbol);
    if (!i->start)
        tell_error(i, i->dlerror());
    else
        ask(SYS_munmap, (long)i + ISLAND_LIBRARY, i->library_room, 0, 0, 0);
}

/* In a child of fork, and of vfork, which shares all, nothing is loaded. */
GATE void load(struct island *i, uint64_t stack)
{
    uint64_t all[MASK_WORDS], old[MASK_WORDS];
    int *error = i->errno_location(), was = *error, cancel = 0, is_on;

    if (ask(SYS_getpid, 0, 0, 0, 0, 0) != i->process || !is_free(i, stack)) {
        __atomic_store_n(&i->state, ISLAND_ARMED, __ATOMIC_SEQ_CST);
        return;
    }
    for (volatile int k = 0; k < MASK_WORDS; k++)
        all[k] = ~0ull;
    i->set_cancel(PTHREAD_CANCEL_DISABLE, &cancel);
    i->set_mask(SIG_SETMASK, all, old);
    if (!i->start)
        open_library(i);
    is_on = i->start && i->start(i);
    for (volatile int k = 0; !is_on && k < FUNCTIONS; k++)
        i->target[k] = i->was[k];
    __atomic_store_n(&i->state, is_on ? ISLAND_ON : ISLAND_FAILED, __ATOMIC_SEQ_CST);
    i->set_mask(SIG_SETMASK, old, NULL);
    i->set_cancel(cancel, NULL);
    *error = was;
}

/* Each gate keeps the arguments of its call, and goes on by what the function was. */
__asm__(".pushsection gate, \"ax\"\n"
    ".global gate_malloc, gate_free, gate_calloc, gate_realloc\n"
    "gate_malloc: xor %r10d, %r10d\n jmp gate_all\n"
    "gate_free: mov $1, %r10d\n jmp gate_all\n"
    "gate_calloc: mov $2, %r10d\n jmp gate_all\n"
    "gate_realloc: mov $3, %r10d\n"
    "gate_all: lea __start_gate(%rip), %r11\n sub $4096, %r11\n"
    " cmpl $1, 8(%r11)\n jne 3f\n"
    " mov (%rsp), %rax\n lea 256(%r11), %rcx\n mov $6, %edx\n"
    "1: cmp (%rcx), %rax\n jb 2f\n cmp 8(%rcx), %rax\n jb 3f\n"
    "2: add $16, %rcx\n dec %edx\n jnz 1b\n"
    " mov $1, %eax\n mov $2, %edx\n lock cmpxchg %edx, 8(%r11)\n jne 3f\n"
    " push %rbp\n mov %rsp, %rbp\n push %rdi\n push %rsi\n push %r10\n push %r11\n"
    " mov %rbp, %rsi\n mov %r11, %rdi\n mov 352(%r11), %rsp\n call load\n"
    " lea -32(%rbp), %rsp\n pop %r11\n pop %r10\n pop %rsi\n pop %rdi\n pop %rbp\n"
    "3: jmp *96(%r11, %r10, 8)\n"
    ".popsection\n");
_Static_assert(offsetof(struct island, state) == 8 && offsetof(struct island, target) == 16 && offsetof(struct island, was) == 96
               && offsetof(struct island, excluded) == 256 && offsetof(struct island, stack_top) == 352, "the gate's numbers");
_Static_assert(ISLAND_ARMED == 1 && ISLAND_LOADING == 2 && FUNCTION_free == 1 && FUNCTION_calloc == 2 && FUNCTION_realloc == 3
               && MOST_EXCLUDED == 6 && ISLAND_CODE == 4096, "the gate's numbers");
