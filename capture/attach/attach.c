/* --attach: makes the island and the jumps, and waits until the process has loaded the library. Until the state says ARMED, all
 * jumps lead by; so whenever this program is killed the process goes on as it was. */
#define _GNU_SOURCE
#include <errno.h>
#include <stdio.h>
#include <stdlib.h>
#include <string.h>
#include <sys/mman.h>
#include <sys/ptrace.h>
#include <sys/syscall.h>
#include <time.h>

#include "attach.h"

enum { MOST_TRIES = 50, MOST_UNREAD = 20, WAIT_NS = 2000000, LOOK_NS = 1000000, PIECE = 256 << 10,
       MOST_FOREIGN = 256 << 10, MOST_OWN = 64 << 20 };

static void nap(long nanoseconds)
{
    nanosleep(&(struct timespec){ .tv_nsec = nanoseconds }, NULL);
}

/* Whether a word leads into the first instructions of a function that are taken. */
static bool leads_into_taken(const struct island *island, uint64_t word)
{
    for (int k = 0; k < FUNCTIONS; k++)
        if (island->saved_bytes[k] && word > island->function[k] && word < island->function[k] + island->saved_bytes[k])
            return true;
    return false;
}

/* How far a thread's stack is searched: its own to the end, and of another, as of a coroutine, what is in use most
 * probably. */
static uint64_t end_of_stack(const struct mapping *in, const struct user_regs_struct *r)
{
    if (!strcmp(in->path, "[stack]"))
        return in->end;
    if (r->fs_base > r->rsp && r->fs_base < in->end && r->fs_base - r->rsp < MOST_OWN)
        return r->fs_base;
    return in->end - r->rsp < MOST_FOREIGN ? in->end : r->rsp + MOST_FOREIGN;
}

static bool stack_leads_there(const struct target *target, const struct mapping *in, const struct user_regs_struct *r)
{
    static uint64_t words[PIECE / 8];
    uint64_t at = r->rsp & ~7ull, end = end_of_stack(in, r) & ~7ull;

    for (size_t size; at < end; at += size) {
        size = end - at < PIECE ? end - at : PIECE;
        bool is_memory = in->kind == ANONYMOUS && !in->is_served;
        if (!(is_memory ? read_bytes(target->process.witness, at, words, size) : try_get(target, at, words, size)))
            return true;
        for (size_t i = 0; i < size / 8; i++)
            if (leads_into_taken(&target->island, words[i]))
                return true;
        end_if_asked();
    }
    return false;
}

/* Whether the thread stands there, or would come back there from a signal's handler, or nobody knows. */
static bool is_at_entry(const struct target *target, pid_t thread)
{
    const struct mapping *in = target->maps.list, *last = in + target->maps.count;
    struct user_regs_struct r;

    if (ptrace(PTRACE_GETREGS, thread, 0, &r))
        fail("thread %d was killed meanwhile", thread);
    while (in < last && in->end <= r.rsp)
        in++;
    return in == last || in->start > r.rsp || leads_into_taken(&target->island, r.rip)
        || stack_leads_there(target, in, &r);
}

static int64_t call_or_fail(struct target *target, struct request_of_call request)
{
    int64_t result = 0;

    for (int tries = 0; !call_process(target, request, &result); tries++) {
        if (tries == MOST_TRIES)
            fail("process %d has no thread that can be called: each takes a signal, or is where it may not be disturbed", target->process.id);
        nap(WAIT_NS * (1 + tries % 4));
    }
    return result;
}

/* Has the process map memory, fills it, and has its code made executable. Gives false if the process has just mapped
 * something there itself. */
static bool make_island(struct target *target)
{
    uint64_t bytes = target->island.stack_end - target->base;
    int64_t result = call_or_fail(target, (struct request_of_call){ SYS_mmap,
        { target->base, bytes, PROT_READ | PROT_WRITE, MAP_PRIVATE | MAP_ANONYMOUS | MAP_FIXED_NOREPLACE, (uint64_t)-1, 0 } });

    if (result == -EEXIST)
        return false;
    if (result != (int64_t)target->base)
        fail("process %d gets no memory: %s", target->process.id, result < 0 ? strerror(-result) : "not where it is wanted");
    target->is_new = true;
    call_step();
    put(target, target->base, &target->island, sizeof target->island);
    put(target, target->base + ISLAND_CODE, island_code, ISLAND_CODE_BYTES);
    put(target, target->base + ISLAND_LIBRARY, attached_library, target->island.library_bytes);
    call_step();
    result = call_or_fail(target, (struct request_of_call){ SYS_mprotect, { target->base + ISLAND_CODE, ISLAND_CODE_BYTES, PROT_READ | PROT_EXEC } });
    if (result)
        fail("process %d may not make memory executable: %s", target->process.id, strerror(-result));
    call_step();
    return true;
}

/* What was mapped for nothing. */
void give_island_back(struct target *target)
{
    uint64_t bytes = target->island.stack_end - target->base;

    target->is_new = false;
    call_process(target, (struct request_of_call){ SYS_munmap, { target->base, bytes } }, &(int64_t){ 0 });
}

/* Whether a function begins as it did, or with its jump, which someone who was killed left there. */
static bool is_as_known(const struct target *target, int k)
{
    const uint8_t *was = target->island.saved[k];
    uint8_t now[SAVED_BYTES], jump[JUMP_BYTES];
    size_t rest = target->island.saved_bytes[k] < SAVED_BYTES ? target->island.saved_bytes[k] : SAVED_BYTES;

    rest = rest > JUMP_BYTES ? rest - JUMP_BYTES : 0;
    get(target, target->island.function[k], now, sizeof now);
    jump_of(target, k, jump);
    return (!memcmp(now, was, JUMP_BYTES) || !memcmp(now, jump, JUMP_BYTES))
        && !memcmp(now + JUMP_BYTES, was + JUMP_BYTES, rest);
}

/* The process may run another program by now, or be under a debugger that has a breakpoint there. */
static void check_functions(const struct target *target)
{
    struct island there;

    if (!try_get(target, target->base, &there, sizeof there) || there.magic != ISLAND_MAGIC)
        fail("process %d runs another program: try again", target->process.id);
    for (int k = 0; k < FUNCTIONS; k++)
        if (target->island.saved_bytes[k] && !is_as_known(target, k))
            fail("process %d: the code of %s has changed", target->process.id, function_names[k]);
}

/* Turns all functions to their gates, or lets them lead by where there is none. */
static void arm(struct target *target, const struct settings *settings)
{
    static const uint8_t *const gates[GATES] = { gate_malloc, gate_free, gate_calloc, gate_realloc };
    struct island *island = &target->island;

    island->process = inner_number(target->process.id);
    for (int k = 0; k < FUNCTIONS; k++)
        island->target[k] = k < GATES ? target->base + ISLAND_CODE + (gates[k] - __start_gate) : island->was[k];
    island->state = ISLAND_OFF;
    island->depth = settings->depth;
    island->forks = settings->are_forks_traced;
    island->forking = 0;
    memset(island->error, 0, sizeof island->error);
    snprintf(island->table_name, sizeof island->table_name, "%s", settings->table_name);
    put(target, target->base, island, sizeof *island);
    call_step();
    set_jumps(target, true);
    set_state(target, ISLAND_ARMED);
    call_step();
}

/* The process's maps and files while it goes on: what it just maps or unmaps can't be read. */
static void read_steady(struct target *target)
{
    read_target(target);
    for (int tries = 0; *target->unread; tries++) {
        if (tries == MOST_UNREAD)
            fail("process %d: %s", target->process.id, target->unread);
        nap(WAIT_NS * (1 + tries % 4));
        read_target(target);
    }
}

/* Looks for an island, before the process is stopped, and plans one if there is none. Gives whether one is to be made. */
static bool survey(struct target *target)
{
    static const char *const refusals[] = { [ISLAND_ARMED] = "is attached already", [ISLAND_LOADING] = "is attached already",
        [ISLAND_ON] = "is attached already", [ISLAND_LEAVING] = "was not detached to the end: detach it first", [ISLAND_FAILED] = NULL };

    target->process.witness = target->process.id;
    read_steady(target);
    refuse_threads(target->process.id);
    find_island(target);
    const char *refusal = target->base && target->island.state < ISLAND_STATES ? refusals[target->island.state] : NULL;
    if (refusal && (inner_number(target->process.id) == target->island.process || is_traced(target)))
        fail("process %d %s", target->process.id, refusal);
    if (target->base && target->island.build != build_of_this())
        fail("process %d was attached by another build of leak_trace: detach it by that", target->process.id);
    if (target->base)
        return false;
    for (int k = 0; k < GATES; k++)
        needed(target, function_names[k]);
    find_entries(target);
    refuse_branches(target);
    plan_island(target);
    return true;
}

/* Whether something may be changed now: no thread is at the first instructions, nor just maps or unmaps a file. */
static bool is_steady(const struct target *target)
{
    for (size_t i = 0; i < target->process.count; i++)
        if (is_at_entry(target, target->process.threads[i].id))
            return false;
    return !*target->unread;
}

/* Has the process get an island, unless it has one. */
static void need_island(struct target *target)
{
    for (int tries = 0;; tries++) {
        limit_search(true);
        bool is_wanted = survey(target);
        limit_search(false);
        if (!is_wanted || make_island(target))
            return;
        if (tries == MOST_TRIES)
            fail("process %d gets no memory: it always maps its own where it is wanted: try again", target->process.id);
    }
}

/* Stops the process and arms it, unless nothing may be changed now: then it goes on, and it is tried again. */
static bool try_arm(struct target *target, const struct settings *settings)
{
    look(target);
    refuse_threads(target->process.id);
    refuse_sharers(&target->process);
    check_functions(target);
    if (!is_steady(target)) {
        let_go(&target->process);
        return false;
    }
    arm(target, settings);
    target->is_new = false;
    return true;
}

/* Waits until the process has loaded the library, or could not, or has allocated nothing for as long as it may take. */
static uint32_t wait_for_start(struct target *target, double seconds)
{
    struct timespec since;

    clock_gettime(CLOCK_MONOTONIC, &since);
    for (;;) {
        if (!try_get(target, target->base, &target->island, sizeof target->island)
            || target->island.magic != ISLAND_MAGIC)
            fail("process %d has ended, or runs another program", target->process.id);
        uint32_t state = target->island.state;
        if (state == ISLAND_ON || state == ISLAND_FAILED || milliseconds_since(since) > seconds * 1000)
            return state;
        end_if_asked();
        nap(LOOK_NS);
    }
}

int attach(struct target *target, const struct settings *settings)
{
    double stood;

    refuse_untraceable(target->process.id);
    target->code = find_code(target->process.id);
    target->refuses_others = true;
    need_island(target);
    for (int tries = 0; !try_arm(target, settings); tries++) {
        if (tries >= MOST_UNREAD && *target->unread)
            fail("process %d: %s", target->process.id, target->unread);
        if (tries == MOST_TRIES)
            fail("process %d: at each of %d times a thread was at the first instructions of malloc or its kin: try again",
                 target->process.id, MOST_TRIES);
        nap(WAIT_NS * (1 + tries % 4));
    }
    stood = milliseconds_since(target->process.since);
    let_go(&target->process);
    uint32_t state = wait_for_start(target, settings->seconds);
    if (state == ISLAND_FAILED) {
        char error[sizeof target->island.error + 1] = "";
        memcpy(error, target->island.error, sizeof target->island.error);
        detach(target);
        fail("process %d could not load the library, and is as it was: %s", target->process.id, *error ? error : "no file could be made");
    }
    fprintf(stderr, "leak_attach: process %d was stopped for %.0f ms, and %s\n", target->process.id, stood,
            state == ISLAND_ON ? "its blocks have callers from now on"
                               : "has not allocated since: its blocks have callers from its next call of malloc on");
    return 0;
}
