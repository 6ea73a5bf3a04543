/* System calls in the stopped threads of a process, so that it tells what only its threads can ask.
 *
 * A thread is called in a trap stop of PTRACE_INTERRUPT, and is brought back to one. There it gets the registers that it had, with
 * the kernel's own sign that a call was interrupted, so that the kernel begins that call again as after any other stop.
 * Meanwhile all its signals are blocked but SIGSYS, which ends a process if the kernel must force it. No thread is called in
 * which the call could be seen (callable.c).
 *
 * If this program dies, the call's `ret` leads to the C library's code for the end of a signal's handler, on a signal frame
 * with all that the thread had: it goes on by itself. */
#ifndef LEAK_CALLS_H
#define LEAK_CALLS_H

#include <sys/user.h>

#include "dump.h"

enum { CALL_ARGUMENTS = 6, ANSWER_BYTES = 64, MOST_OF_STATE = 12288, RED_ZONE = 128,
       FRAME_ROOM = 16384 /* a frame with the largest state, and what aligns it */ };

/* As an argument: the address at which the kernel is to write its answer. */
static const uint64_t ANSWER = ~(uint64_t)0;

/* Where the process has the instructions that are needed, or 0. */
struct code {
    uint64_t call;          /* syscall; ret */
    uint64_t handler_end;   /* mov $15, %rax; syscall (rt_sigreturn) */
    bool is_late;           /* its disk did not answer in time */
};

struct call {
    struct thread *thread;
    struct user_regs_struct registers;  /* as they were */
    const char *refusal;    /* why it is not made, or was not, or NULL */
    uint64_t top;           /* the frame lies below */
    bool is_stack;          /* the frame lies in a stack: the bytes there are put back */
    int64_t result;         /* as the kernel gives it: below 0 an error */
    uint8_t answer[ANSWER_BYTES];
    /* what calls.c and frame.c need in between */
    uint64_t mask, frame_at, answer_at;
    uint8_t *kept;
    bool is_begun;
};

/* What is to be called, in each of some threads. */
struct request_of_call {
    long number;
    uint64_t arguments[CALL_ARGUMENTS];
};

/* code.c */
struct code find_code(pid_t process);
bool has_code(pid_t witness, const struct code *code);

/* callable.c */
bool tells_shadow_stack(const struct text *status);
void look_at_thread(struct call *call, const struct process *process);
bool stands_on_own_stack(const struct call *call, const struct maps *maps);

/* frame.c */
bool read_bytes(pid_t thread, uint64_t address, void *bytes, size_t size);
bool write_bytes(pid_t thread, uint64_t address, const void *bytes, size_t size);
bool put_frame(struct call *call, const struct code *code);
void take_frame_away(struct call *call);

/* calls.c */
void make_calls(struct call *calls, size_t count, const struct code *code, const struct request_of_call *request);
struct call *find_owner(struct call *calls, size_t count, const struct maps *maps);
int64_t call_owner(const struct call *owner, const struct code *code, struct request_of_call request);

#endif
