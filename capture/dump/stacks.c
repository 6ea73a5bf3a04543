/* The alternate signal stack of each thread, which only a call in the thread tells (sigaltstack(2)).
 *
 * One thread is called on its own stack. If there are others, it makes memory for their frames, and they are called all at
 * once, or some at a time if they are many. */
#define _GNU_SOURCE
#include <signal.h>
#include <stdio.h>
#include <stdlib.h>
#include <string.h>
#include <sys/mman.h>
#include <sys/syscall.h>

#include "calls.h"
#include "words.h"

enum { MOST_AT_ONCE = 256, LARGEST_ERROR = -4095 };

static const struct request_of_call ASK = { SYS_sigaltstack, { 0, ANSWER } };

/* Sets each call's place in the memory, and makes the calls: of those from the first on for which there is room. Gives the first
 * that was not tried. */
static size_t call_some(struct call **list, size_t count, uint64_t memory, const struct code *code)
{
    static struct call some[MOST_AT_ONCE];
    size_t taken = count < MOST_AT_ONCE ? count : MOST_AT_ONCE;

    for (size_t i = 0; i < taken; i++) {
        list[i]->top = memory + (i + 1) * FRAME_ROOM;
        some[i] = *list[i];
    }
    make_calls(some, taken, code, &ASK);
    for (size_t i = 0; i < taken; i++)
        *list[i] = some[i];
    return taken;
}

/* Calls the threads of the list by frames in memory that the owner makes for it, and gives back. */
static void call_others(struct call **list, size_t count, const struct call *owner, const struct code *code)
{
    size_t most = count < MOST_AT_ONCE ? count : MOST_AT_ONCE, size = most * FRAME_ROOM, done = 0;
    int64_t memory = call_owner(owner, code, (struct request_of_call){ SYS_mmap,
        { 0, size, PROT_READ | PROT_WRITE, MAP_PRIVATE | MAP_ANONYMOUS | MAP_NORESERVE, (uint64_t)-1, 0 } });

    if (memory >= LARGEST_ERROR && memory < 0) {
        for (size_t i = 0; i < count; i++)
            list[i]->refusal = "the process gets no memory for its frame";
        return;
    }
    while (done < count)
        done += call_some(list + done, count - done, memory, code);
    if (call_owner(owner, code, (struct request_of_call){ SYS_munmap, { memory, size } }))
        fprintf(stderr, "leak_core: %zu bytes at 0x%llx stay mapped in the process\n", size, (unsigned long long)memory);
}

static void call_all(struct call *calls, size_t count, const struct maps *maps, const struct code *code)
{
    struct call *owner = find_owner(calls, count, maps), **others = calloc(count, sizeof *others);
    size_t other_count = 0;

    if (!others)
        fail("no memory for the list of threads");
    if (owner)
        make_calls(owner, 1, code, &ASK);
    for (struct call *c = calls; c < calls + count; c++)
        if (!c->refusal && c != owner)
            others[other_count++] = c;
    if (other_count && owner && !owner->refusal)
        call_others(others, other_count, owner, code);
    for (size_t i = 0; i < other_count && (!owner || owner->refusal); i++)
        others[i]->refusal = "no thread has a stack on which a frame may lie";
    free(others);
}

/* Says of how many threads the stack is not known, by reasons. */
static void tell_refusals(const struct call *calls, size_t count)
{
    for (const struct call *c = calls; c < calls + count; c++) {
        size_t same = 0, before = 0;
        for (const struct call *other = calls; other < calls + count && c->refusal; other++) {
            bool is_same = other->refusal && !strcmp(other->refusal, c->refusal);
            same += is_same, before += is_same && other < c;
        }
        if (same && !before)
            fprintf(stderr, "leak_core: of %zu of %zu threads it is not known whether they have an alternate signal stack, which only "
                            "the kernel knows: %s\n", same, count, c->refusal);
    }
}

static void add_stack(struct call *call, struct words *words)
{
    stack_t stack;

    if (!call->refusal && call->result)
        call->refusal = "the call failed";
    if (call->refusal) {
        words->unasked++;
        return;
    }
    memcpy(&stack, call->answer, sizeof stack);
    if (!(stack.ss_flags & SS_DISABLE))
        add_word(words, (struct word){ SIGNAL_STACK, call->thread->id, (uintptr_t)stack.ss_sp, stack.ss_size });
}

/* The code was looked for before the process was stopped. A process that was just starting a program is looked at again. */
void ask_signal_stacks(struct process *process, const struct maps *maps, const struct code *found, struct words *words)
{
    struct call *calls = calloc(process->count, sizeof *calls);
    struct code code = found->is_late || has_code(process->witness, found) ? *found : find_code(process->witness);
    bool is_there = code.call && code.handler_end;

    if (!calls)
        fail("no memory for the list of threads");
    for (size_t i = 0; i < process->count; i++) {
        calls[i].thread = process->threads + i;
        look_at_thread(calls + i, process);
        if (!is_there)
            calls[i].refusal = "no code was found by which it could be called";
    }
    call_all(calls, process->count, maps, &code);
    words->unasked = 0;
    for (size_t i = 0; i < process->count; i++)
        add_stack(calls + i, words);
    tell_refusals(calls, process->count);
    free(calls);
}
