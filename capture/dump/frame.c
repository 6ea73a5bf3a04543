/* The signal frame by which a thread goes on if this program dies during a call: what rt_sigreturn reads (Linux, struct
 * rt_sigframe, struct sigcontext_64, struct _fpx_sw_bytes). */
#define _GNU_SOURCE
#include <elf.h>
#include <stdlib.h>
#include <string.h>
#include <sys/ptrace.h>
#include <sys/syscall.h>
#include <sys/uio.h>

#include "calls.h"

enum { HAS_STATE_AND_STACK = 7 /* UC_FP_XSTATE, UC_SIGCONTEXT_SS, UC_STRICT_RESTORE_SS */, BAD_STACK_FLAGS = 0x7fffffff,
       STATE_HEAD_AT = 464, STATE_HEAD_BYTES = 48, STATE_MAGIC = 0x46505853, STATE_END_MAGIC = 0x46505845, STATE_ALIGNMENT = 64 };

struct frame {
    uint64_t return_to, flags, link, stack[3];
    uint64_t r8, r9, r10, r11, r12, r13, r14, r15, rdi, rsi, rbp, rbx, rdx, rax, rcx, rsp, rip, eflags;
    uint16_t cs, gs, fs, ss;
    uint64_t error, trap, old_mask, cr2, state, reserved[8], mask;
};

/* What the state has at 464: it is as long as it says, and features of the processor are as before. */
struct state_head {
    uint32_t magic, size_with_end;
    uint64_t features;
    uint32_t size, pad[7];
};

_Static_assert(sizeof(struct state_head) == STATE_HEAD_BYTES, "struct _fpx_sw_bytes");

/* The numbers by which the kernel says in rax that a call was interrupted (Linux, include/linux/errno.h). */
enum { RESTART_SYSTEM = -512, RESTART_NO_INTERRUPT = -513, RESTART_NO_HANDLER = -514, RESTART_BLOCK = -516 };

/* After rt_sigreturn the kernel begins no call again, so for the frame it is done by hand. */
static void begin_again(struct user_regs_struct *r)
{
    int64_t result = r->rax;

    if ((int64_t)r->orig_rax < 0)
        return;
    if (result == RESTART_SYSTEM || result == RESTART_NO_INTERRUPT || result == RESTART_NO_HANDLER)
        r->rip -= 2, r->rax = r->orig_rax;
    else if (result == RESTART_BLOCK)
        r->rip -= 2, r->rax = SYS_restart_syscall;
}

/* Frames lie in memory whose pages are there or are made at once, so that neither of these waits. */
bool read_bytes(pid_t thread, uint64_t address, void *bytes, size_t size)
{
    struct iovec here = { bytes, size }, there = { (void *)address, size };

    return process_vm_readv(thread, &here, 1, &there, 1, 0) == (ssize_t)size;
}

bool write_bytes(pid_t thread, uint64_t address, const void *bytes, size_t size)
{
    struct iovec here = { (void *)bytes, size }, there = { (void *)address, size };

    return process_vm_writev(thread, &here, 1, &there, 1, 0) == (ssize_t)size;
}

/* Reads the x87, SSE and further registers as a frame has them. Gives their size, without the four bytes that end them, or 0. */
static size_t read_state(pid_t thread, uint8_t *state)
{
    struct iovec set = { state, MOST_OF_STATE };
    struct state_head head = { .magic = STATE_MAGIC };
    uint32_t end = STATE_END_MAGIC;

    if (ptrace(PTRACE_GETREGSET, thread, (void *)NT_X86_XSTATE, &set) || set.iov_len >= MOST_OF_STATE
        || set.iov_len < STATE_HEAD_AT + sizeof head)
        return 0;
    memcpy(&head.features, state + STATE_HEAD_AT, sizeof head.features);
    head.size = set.iov_len, head.size_with_end = set.iov_len + sizeof end;
    memcpy(state + STATE_HEAD_AT, &head, sizeof head);
    memcpy(state + set.iov_len, &end, sizeof end);
    return set.iov_len;
}

static struct frame frame_of(const struct call *call, const struct code *code, uint64_t state_at)
{
    struct user_regs_struct r = call->registers;

    begin_again(&r);
    return (struct frame){
        .return_to = code->handler_end, .flags = HAS_STATE_AND_STACK, .stack = { 0, BAD_STACK_FLAGS, 0 }, /* it keeps its own */
        .r8 = r.r8, .r9 = r.r9, .r10 = r.r10, .r11 = r.r11, .r12 = r.r12, .r13 = r.r13, .r14 = r.r14, .r15 = r.r15,
        .rdi = r.rdi, .rsi = r.rsi, .rbp = r.rbp, .rbx = r.rbx, .rdx = r.rdx, .rax = r.rax, .rcx = r.rcx, .rsp = r.rsp,
        .rip = r.rip, .eflags = r.eflags, .cs = r.cs, .ss = r.ss, .state = state_at, .mask = call->mask,
    };
}

/* Writes the frame below the call's top; its place for an answer lies between the frame and the state. */
bool put_frame(struct call *call, const struct code *code)
{
    static uint8_t state[MOST_OF_STATE + sizeof(uint32_t)];
    size_t size = read_state(call->thread->id, state);
    uint64_t state_at = (call->top - size - sizeof(uint32_t)) & -(uint64_t)STATE_ALIGNMENT;

    call->answer_at = state_at - ANSWER_BYTES;
    call->frame_at = ((call->answer_at - sizeof(struct frame)) & -(uint64_t)16) - 8;    /* as at a function's entry */
    struct frame frame = frame_of(call, code, state_at);
    if (!size)
        return false;
    if (call->is_stack) {
        call->kept = malloc(call->top - call->frame_at);
        if (!call->kept || !read_bytes(call->thread->id, call->frame_at, call->kept, call->top - call->frame_at))
            return false;
    }
    return write_bytes(call->thread->id, state_at, state, size + sizeof(uint32_t))
        && write_bytes(call->thread->id, call->frame_at, &frame, sizeof frame);
}

/* Puts back the bytes of the stack. */
void take_frame_away(struct call *call)
{
    if (call->kept)
        write_bytes(call->thread->id, call->frame_at, call->kept, call->top - call->frame_at);
    free(call->kept);
    call->kept = NULL;
}
