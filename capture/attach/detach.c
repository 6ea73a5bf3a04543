/* --detach: lets the jumps lead by, gives the functions their bytes back, and once no thread is in the library has the process
 * give up the table and the finder. The island and the library stay: a thread may be about to return through them. */
#define _GNU_SOURCE
#include <errno.h>
#include <stdio.h>
#include <string.h>
#include <sys/ptrace.h>
#include <sys/syscall.h>
#include <time.h>

#include "../table.h"
#include "attach.h"

enum { MOST_TRIES = 100, SHORTEST_NS = 300000, MOST_SHIFT = 6, LEFT_STACK = 64 << 10 };

static const char STAYS[] = "; it could not remove its table's file, which leak_trace --remove removes";

static void pause_before(int tries)
{
    nanosleep(&(struct timespec){ .tv_nsec = SHORTEST_NS << (tries < MOST_SHIFT ? tries : MOST_SHIFT) }, NULL);
}

/* Whether no thread is in the library, or in fork, whose child looks for the table. */
static bool is_quiet(const struct target *target)
{
    const struct island *island = &target->island;

    if (island->forking)
        return false;
    for (size_t i = 0; island->inside_at && i < target->process.count; i++) {
        struct user_regs_struct r;
        int32_t depth = 0;
        pid_t thread = target->process.threads[i].id;
        if (ptrace(PTRACE_GETREGS, thread, 0, &r)
            || !try_get(target, r.fs_base + island->inside_at, &depth, sizeof depth) || depth)
            return false;
    }
    return true;
}

/* The head of the process's own table, and where it is; 0 if there is none. A child of fork may have its parent's mapped. */
static uint64_t own_head(const struct target *target, struct table_head *head)
{
    uint64_t at = 0;

    *head = (struct table_head){ 0 };
    if (target->island.head_at)
        get(target, target->island.head_at, &at, sizeof at);
    if (!at || !try_get(target, at, head, sizeof *head) || (int)head->pid != inner_number(target->process.id)) {
        *head = (struct table_head){ 0 };
        return 0;
    }
    return at;
}

/* From here on nothing takes the table for one: it misses what happens. If the file stays it is empty, and says that it may
 * be removed. */
static void end_table(const struct target *target, bool is_removed)
{
    struct table_head head;
    uint64_t at = own_head(target, &head), finder = 0, none = 0, ended = TABLE_ENDED;

    if (at && !is_removed) {
        put(target, at + offsetof(struct table_head, state), &ended, sizeof ended);
        put(target, at + offsetof(struct table_head, used), &none, sizeof none);
    } else if (at) {
        put(target, at, &none, sizeof none);
    }
    call_step();
    if (target->island.finder_at)
        get(target, target->island.finder_at, &finder, sizeof finder);
    if (finder)
        write_bytes(target->process.witness, finder, &(uint32_t){ 0 }, sizeof(uint32_t));    /* finder->on comes first */
    call_step();
}

/* What the loading left behind in the island's stack would hold blocks. */
static void clear_stack(const struct target *target)
{
    static const uint8_t zeros[LEFT_STACK];

    if (target->island.start)
        put(target, target->island.stack_end - LEFT_STACK, zeros, LEFT_STACK);
}

/* Has the process unmap what the table's head lists, but the island. Nobody uses it any more, so the process goes on meanwhile. Gives false if no thread can be called. */
static bool unmap_table(struct target *target, const struct table_head *head)
{
    int64_t result;

    for (uint64_t i = 0; i < head->own_count && i < MOST_OWN; i++) {
        uint64_t start = head->own[i].start, bytes = (head->own[i].bytes + PAGE - 1) & -(uint64_t)PAGE;
        if (start >= target->base && start < target->island.stack_end)
            continue;
        if (!call_process(target, (struct request_of_call){ SYS_munmap, { start, bytes } }, &result))
            return false;
        call_step();
    }
    return true;
}

/* The process removes the file itself, as it made it. This comes first: whoever is killed after that leaves no file that
 * nobody knows. Gives false if no thread can be called for as long as that is tried, or may not remove it any more. */
static bool remove_file(struct target *target)
{
    struct request_of_call unlinks = { SYS_unlink, { 0 } };
    struct table_head head;
    int64_t result;

    target->process.witness = target->process.id;
    limit_search(true);
    read_target(target);
    find_island(target);
    limit_search(false);
    if (!target->base || target->island.state != ISLAND_ON || !is_traced(target) || !own_head(target, &head))
        return true;
    unlinks.arguments[0] = target->island.table_path;
    for (int tries = 0; !call_process(target, unlinks, &result); tries++) {
        if (tries == MOST_TRIES)
            return false;
        pause_before(tries);
    }
    call_step();
    return !result || result == -ENOENT;
}

/* Makes all as it was but the table's memory, in one stop. */
static void let_by(struct target *target, bool is_removed)
{
    struct island *island = &target->island;

    set_state(target, ISLAND_LEAVING);
    put(target, target->base + offsetof(struct island, target), island->was, sizeof island->was);
    call_step();
    end_table(target, is_removed);
    set_jumps(target, false);
}

/* What the library knows of its table: nothing of it is there for it any more. */
static void forget_table(struct target *target, struct table_head *head)
{
    struct island *island = &target->island;

    own_head(target, head);
    if (island->finder_at)
        put(target, island->finder_at, &(uint64_t){ 0 }, sizeof(uint64_t));
    island->head_at = island->finder_at = island->inside_at = 0;
    put(target, target->base, island, sizeof *island);
    clear_stack(target);
}

/* What detaching has come to. */
struct leaving {
    bool is_removed, is_by;     /* the table's file; the jumps */
    struct table_head head;
};

/* Whether the jumps are undone, and no thread is in the library. A process that is just loading it is waited for. */
static bool try_detach(struct target *target, struct leaving *leaving)
{
    look(target);
    if (!leaving->is_by && !find_by_jumps(target)) {
        find_island(target);
        if (!target->base || target->island.state == ISLAND_OFF)
            fail("process %d is not attached", target->process.id);
    }
    get(target, target->base, &target->island, sizeof target->island);
    if (target->island.state == ISLAND_LOADING && inner_number(target->process.id) == target->island.process)
        return false;
    let_by(target, leaving->is_removed);
    leaving->is_by = true;
    if (!is_quiet(target))
        return false;
    forget_table(target, &leaving->head);
    return true;
}

int detach(struct target *target)
{
    struct leaving leaving = { 0 };
    bool is_done;
    int tries = 0;

    target->code = find_code(target->process.id);
    leaving.is_removed = remove_file(target);
    while (!(is_done = try_detach(target, &leaving)) && ++tries < MOST_TRIES) {
        let_go(&target->process);
        pause_before(tries);
    }
    double stood = milliseconds_since(target->process.since);
    let_go(&target->process);
    if (!leaving.is_by)
        fail("process %d has been loading the library for too long: try again", target->process.id);
    for (tries = 0; is_done && !unmap_table(target, &leaving.head) && tries < MOST_SHIFT; tries++)
        pause_before(tries);
    write_bytes(target->process.id, target->base + offsetof(struct island, state), &(uint32_t){ ISLAND_OFF }, sizeof(uint32_t));
    fprintf(stderr, "leak_attach: process %d was stopped for %.0f ms%s%s, and its blocks get no more callers\n",
            target->process.id, stood, is_done ? "" : "; a thread stayed in the library, so its table stays in memory",
            leaving.is_removed ? "" : STAYS);
    return 0;
}
