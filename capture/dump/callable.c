/* Which threads may be called, and where the stack of a thread is its own. */
#define _GNU_SOURCE
#include <elf.h>
#include <errno.h>
#include <stdlib.h>
#include <string.h>
#include <sys/ptrace.h>
#include <sys/uio.h>

#include "calls.h"

enum { CODE_OF_64_BITS = 0x33, NT_SHADOW_STACK = 0x204, STACK_LEFT = 4 * PAGE,
       SEQUENCE_AT = 8 /* Linux, struct rseq, rseq_cs */ };

/* ptrace(2), PTRACE_GET_SYSCALL_USER_DISPATCH_CONFIG, which older headers lack. */
#define GET_DISPATCH ((enum __ptrace_request)0x4211)

/* Linux, arch/x86, arch_proc_pid_thread_features: a line of words. The name of a thread may be any word too. */
bool tells_shadow_stack(const struct text *status)
{
    const char *line = strstr(status->bytes, "\nx86_Thread_features:"), *end = line ? strchr(line + 1, '\n') : NULL;

    return line && memmem(line, end ? (size_t)(end - line) : strlen(line), "shstk", 5);
}

/* By /proc: a filter would see the call and may end the process for it; a shadow stack would miss the frame's return. */
static const char *refusal_by_status(pid_t process, pid_t thread)
{
    struct text status = read_text("/proc/%d/task/%d/status", process, thread);
    bool is_read = strstr(status.bytes, "\nState:"), has_filter = number_after(status, "\nSeccomp:", 10);
    bool has_shadow_stack = tells_shadow_stack(&status);

    free(status.bytes);
    return !is_read ? "its status can't be read" : has_filter ? "it is under seccomp" : has_shadow_stack ? "it has a shadow stack" : NULL;
}

static bool has_shadow_stack(pid_t thread)
{
    uint64_t words[4] = { 0 };
    struct iovec set = { words, sizeof words };

    return !ptrace(PTRACE_GETREGSET, thread, (void *)NT_SHADOW_STACK, &set) && words[0];
}

/* Linux, prctl, PR_SET_SYSCALL_USER_DISPATCH: a handler of the process gets its calls. Kernels before 6.4 don't tell, but
 * then the call ends in a SIGSYS, which calls.c takes back. */
static bool has_dispatch(pid_t thread)
{
    struct { uint64_t mode, selector, offset, size; } about = { 0 };

    return !ptrace(GET_DISPATCH, thread, sizeof about, &about) && about.mode;
}

/* Linux, rseq(2): a thread that is in a restartable sequence and does not see that it was interrupted would go on with what no
 * longer holds. Kernels before 5.13 don't tell. */
static bool may_be_in_sequence(pid_t thread, uint64_t rip)
{
    struct __ptrace_rseq_configuration about = { 0 };
    struct { uint32_t version, flags; uint64_t start, size, abort; } sequence;
    uint64_t current;

    if (ptrace(PTRACE_GET_RSEQ_CONFIGURATION, thread, sizeof about, &about) <= 0)
        return true;
    if (!about.rseq_abi_pointer)
        return false;
    if (read_memory(thread, about.rseq_abi_pointer + SEQUENCE_AT, &current, sizeof current) != sizeof current)
        return true;
    return current && (read_memory(thread, current, &sequence, sizeof sequence) != sizeof sequence
                       || rip - sequence.start < sequence.size);
}

static const char *refusal_of(const struct process *process, const struct thread *thread, const struct user_regs_struct *registers)
{
    if (!thread->is_trapped)
        return "it is stopped by a signal, or was about to take one";
    if (registers->cs != CODE_OF_64_BITS)
        return "it runs code of 32 bits";
    const char *refusal = refusal_by_status(process->id, thread->id);
    if (refusal)
        return refusal;
    if (has_shadow_stack(thread->id))
        return "it has a shadow stack";
    if (has_dispatch(thread->id))
        return "its calls go to a handler";
    if (may_be_in_sequence(thread->id, registers->rip))
        return "it is, or may be, in a restartable sequence";
    return NULL;
}

/* Reads the registers of the call's thread, and whether it may be called. */
void look_at_thread(struct call *call, const struct process *process)
{
    struct iovec set = { &call->registers, sizeof call->registers };

    if (ptrace(PTRACE_GETREGSET, call->thread->id, (void *)NT_PRSTATUS, &set))
        fail("thread %d was killed meanwhile", call->thread->id);
    call->refusal = set.iov_len == sizeof call->registers ? refusal_of(process, call->thread, &call->registers)
                                                          : "it runs code of 32 bits";
}

/* The mapping that has the address, or NULL. */
static const struct mapping *mapping_of(const struct maps *maps, uint64_t address)
{
    size_t low = 0, high = maps->count;

    while (low < high) {
        size_t middle = low + (high - low) / 2;
        if (maps->list[middle].end <= address)
            low = middle + 1;
        else
            high = middle;
    }
    return low < maps->count && maps->list[low].start <= address ? maps->list + low : NULL;
}

static bool is_guard(const struct mapping *mapping, uint64_t end)
{
    return mapping->kind == ANONYMOUS && !(mapping->flags & (PF_R | PF_W | PF_X)) && mapping->end == end;
}

/* Whether what lies below the stack pointer is free: it is in the first thread's stack, or in one as C libraries make them for
 * a thread, between a guard and the thread's own data. A coroutine's stack, one of a signal's handler or one of Go's is not
 * taken: below its pointer may be what is in use. */
bool stands_on_own_stack(const struct call *call, const struct maps *maps)
{
    const struct user_regs_struct *r = &call->registers;
    const struct mapping *m = mapping_of(maps, r->rsp);

    if (!m || m->kind != ANONYMOUS || m->is_served || (m->flags & (PF_R | PF_W)) != (PF_R | PF_W) || r->rsp - m->start < FRAME_ROOM + STACK_LEFT)
        return false;
    if (!strcmp(m->path, "[stack]"))
        return true;
    return r->fs_base > r->rsp && r->fs_base < m->end && m > maps->list && is_guard(m - 1, m->start);
}
