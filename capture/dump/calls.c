/* Calls in stopped threads, in all of them at once: each is sent to the entry of its call, then through it, then is given back. */
#define _GNU_SOURCE
#include <errno.h>
#include <sched.h>
#include <signal.h>
#include <string.h>
#include <sys/ptrace.h>
#include <sys/wait.h>

#include "calls.h"

enum { SPINS = 200, POLL_NS = 20000, ENTRY_LIMIT_MS = 200, LONGEST_MS = 4000, MOST_STOPS = 10,
       SYSCALL_STOP = SIGTRAP | 0x80 /* PTRACE_O_TRACESYSGOOD */, SYS_USER_DISPATCH = 2 /* sigaction(2), si_code of SIGSYS */,
       SINGLE_STEP_AND_DIRECTION = 0x500, SYSCALL_BYTES = 2, NO_CALL = -1 };

static const uint64_t ALL_BUT_SIGSYS = ~(1ull << (SIGSYS - 1));

/* Waits for the thread's next stop. Gives false if that does not come in time, as in a frozen container. One that could run and
 * only waits for a processor is given more time. */
static bool wait_stop(pid_t thread, int *status, double limit)
{
    struct timespec since;

    clock_gettime(CLOCK_MONOTONIC, &since);
    for (unsigned polls = 0;; polls++) {
        double waited = milliseconds_since(since);
        char state = waited > limit ? state_of(thread, thread) : 'R';
        if (waited > LONGEST_MS || state == 'S' || state == 'D')
            return false;
        pid_t got = waitpid(thread, status, __WALL | WNOHANG);
        if (got == thread && WIFSTOPPED(*status))
            return true;
        if (got == thread || (got < 0 && errno != EINTR))
            fail("thread %d was killed meanwhile", thread);
        if (polls < SPINS)
            sched_yield();
        else
            nanosleep(&(struct timespec){ .tv_nsec = POLL_NS }, NULL);
    }
}

static bool is_event(int status)
{
    return status >> 16 == PTRACE_EVENT_STOP;
}

/* Whether the signal is the one by which the kernel refuses the call. */
static bool is_by_call(pid_t thread, int signal)
{
    siginfo_t about = { 0 };

    return signal == SIGSYS && !ptrace(PTRACE_GETSIGINFO, thread, NULL, &about) && about.si_code == SYS_USER_DISPATCH;
}

/* To the entry of the call. From here on the thread goes on by its frame if this program dies. */
static void begin_call(struct call *call, const struct code *code, const struct request_of_call *request)
{
    pid_t thread = call->thread->id;
    struct user_regs_struct r = call->registers;
    unsigned long long *const registers[CALL_ARGUMENTS] = { &r.rdi, &r.rsi, &r.rdx, &r.r10, &r.r8, &r.r9 };

    call->refusal = "no frame could be made";
    if (ptrace(PTRACE_GETSIGMASK, thread, sizeof call->mask, &call->mask) || !put_frame(call, code))
        return;
    call_step();
    for (int i = 0; i < CALL_ARGUMENTS; i++)
        *registers[i] = request->arguments[i] == ANSWER ? call->answer_at : request->arguments[i];
    r.rip = code->call, r.rsp = call->frame_at, r.rax = request->number, r.orig_rax = NO_CALL;
    r.eflags &= ~(unsigned long long)SINGLE_STEP_AND_DIRECTION;
    if (ptrace(PTRACE_SETOPTIONS, thread, 0, PTRACE_O_TRACESYSGOOD) || ptrace(PTRACE_SETREGS, thread, 0, &r))
        return;
    call->is_begun = true, call->refusal = NULL;
    call_step();
    ptrace(PTRACE_SETSIGMASK, thread, sizeof ALL_BUT_SIGSYS, &ALL_BUT_SIGSYS);
    call_step();
    if (ptrace(PTRACE_SYSCALL, thread, 0, 0))
        fail("thread %d was killed meanwhile", thread);
    call_step();
}

/* From the entry through the call, to a trap stop. One that is asked for at the entry comes after the call. */
static void pass_call(struct call *call, bool *is_frozen)
{
    int status = 0;
    bool has_come = wait_stop(call->thread->id, &status, *is_frozen ? 1 : ENTRY_LIMIT_MS);

    if (!has_come)
        *is_frozen = true, call->refusal = "it does not go on, as in a frozen container";
    else if (is_event(status) || WSTOPSIG(status) != SYSCALL_STOP)
        call->refusal = "a signal came";
    if (has_come && !is_event(status) && WSTOPSIG(status) != SYSCALL_STOP && !is_by_call(call->thread->id, WSTOPSIG(status)))
        call->thread->signal = WSTOPSIG(status);    /* SIGSTOP, or a SIGSYS that someone sent: it is taken later */
    call_step();
    ptrace(PTRACE_INTERRUPT, call->thread->id, 0, 0);
    call_step();
    if (has_come && !call->thread->signal)
        ptrace(PTRACE_CONT, call->thread->id, 0, 0);
    call_step();
}

/* Brings it to a trap stop, whatever came between. If a signal came that is to be taken later, it stays where it takes it. */
static int bring_back(struct thread *thread)
{
    int status = 0;

    if (thread->signal)
        return 0;
    for (int stops = 0; stops < MOST_STOPS; stops++) {
        if (!wait_stop(thread->id, &status, LONGEST_MS))
            fail("thread %d does not stop again: it goes on by itself", thread->id);
        if (is_event(status))
            return status;
        if (WSTOPSIG(status) != SYSCALL_STOP && !is_by_call(thread->id, WSTOPSIG(status))) {
            thread->signal = WSTOPSIG(status);
            return status;
        }
        ptrace(PTRACE_INTERRUPT, thread->id, 0, 0);
        ptrace(PTRACE_CONT, thread->id, 0, 0);
    }
    return status;
}

/* Gives back the mask first: until the registers are back the frame has all. */
static void give_back(const struct call *call)
{
    pid_t thread = call->thread->id;

    call_step();
    ptrace(PTRACE_SETSIGMASK, thread, sizeof call->mask, &call->mask);
    call_step();
    if (ptrace(PTRACE_SETREGS, thread, 0, &call->registers))
        fail("thread %d was killed meanwhile", thread);
    call_step();
    ptrace(PTRACE_SETOPTIONS, thread, 0, 0);
}

static void end_call(struct call *call, const struct code *code)
{
    struct user_regs_struct r;
    pid_t thread = call->thread->id;

    if (call->is_begun) {
        bool is_event_stop = is_event(bring_back(call->thread));
        if (!call->refusal && (!is_event_stop || ptrace(PTRACE_GETREGS, thread, 0, &r) || r.rip != code->call + SYSCALL_BYTES))
            call->refusal = "it stopped elsewhere";
        if (!call->refusal) {
            call->result = r.rax;
            if (!read_bytes(thread, call->answer_at, call->answer, sizeof call->answer))
                call->refusal = "its answer can't be read";
        }
        give_back(call);
    }
    take_frame_away(call);
    call->is_begun = false;
}

/* Makes the call in each thread for which nothing speaks against it, all at once. What can't be made gets a refusal. */
void make_calls(struct call *calls, size_t count, const struct code *code, const struct request_of_call *request)
{
    bool is_frozen = false;

    for (size_t i = 0; i < count; i++)
        if (!calls[i].refusal)
            begin_call(calls + i, code, request);
    for (size_t i = 0; i < count; i++)
        if (calls[i].is_begun)
            pass_call(calls + i, &is_frozen);
    for (size_t i = 0; i < count; i++)
        end_call(calls + i, code);
}

/* The thread that is called on its own stack, or NULL. The first one is the most usual. */
struct call *find_owner(struct call *calls, size_t count, const struct maps *maps)
{
    for (struct call *c = calls; c < calls + count; c++)
        if (!c->refusal && stands_on_own_stack(c, maps)) {
            c->top = c->registers.rsp - RED_ZONE;
            c->is_stack = true;
            return c;
        }
    return NULL;
}

/* Makes another call in the owner, and gives its result, or -1. */
int64_t call_owner(const struct call *owner, const struct code *code, struct request_of_call request)
{
    struct call call = *owner;

    make_calls(&call, 1, code, &request);
    return call.refusal ? -1 : call.result;
}
