/* The island in the process: whether there is one, calls by which it gets memory, and the jumps that lead there. */
#define _GNU_SOURCE
#include <dirent.h>
#include <errno.h>
#include <fcntl.h>
#include <stdio.h>
#include <stdlib.h>
#include <string.h>
#include <sys/ptrace.h>
#include <unistd.h>

#include "attach.h"

enum { JUMP = 0xe9, MOST_CALLED = 64 };

const char *const function_names[FUNCTIONS] = { "malloc", "free", "calloc", "realloc", "memalign", "aligned_alloc", "posix_memalign",
                                                "valloc", "pvalloc", "dlclose" };

/* FNV-1a of the bytes that the process runs. */
static uint64_t hash(uint64_t sum, const uint8_t *at, const uint8_t *end)
{
    for (; at < end; at++)
        sum = (sum ^ *at) * 0x100000001b3ull;
    return sum;
}

uint64_t build_of_this(void)
{
    return hash(hash(0xcbf29ce484222325ull, __start_gate, __stop_gate), attached_library, attached_library_end);
}

void put(const struct target *target, uint64_t address, const void *from, size_t size)
{
    if (!write_bytes(target->process.witness, address, from, size))
        fail("process %d: %zu bytes at 0x%llx can't be written: %s", target->process.id, size, (unsigned long long)address, strerror(errno));
}

/* Code may not be written by the process itself. */
void put_text(const struct target *target, uint64_t address, const void *from, size_t size)
{
    char path[64];

    snprintf(path, sizeof path, "/proc/%d/mem", target->process.witness);
    int file = open(path, O_RDWR | O_CLOEXEC);
    if (file < 0 || pwrite(file, from, size, address) != (ssize_t)size)
        fail("process %d: its code can't be written: %s", target->process.id, strerror(errno));
    close(file);
}

static bool read_island(struct target *target, uint64_t base)
{
    struct island island;

    if (!try_get(target, base, &island, sizeof island) || island.magic != ISLAND_MAGIC)
        return false;
    target->base = base;
    target->island = island;
    return true;
}

/* By the jump of any function: whoever was killed may have written only some. */
bool find_by_jumps(struct target *target)
{
    for (int k = 0; k < FUNCTIONS; k++) {
        uint64_t size, at = find_symbol(&target->libc, function_names[k], &size);
        uint8_t code[JUMP_BYTES];
        int32_t distance;
        if (!at)
            continue;
        get(target, at, code, sizeof code);
        memcpy(&distance, code + 1, sizeof distance);
        uint64_t stub = at + JUMP_BYTES + (int64_t)distance;
        if (code[0] == JUMP && read_island(target, (stub & -(uint64_t)PAGE) - ISLAND_CODE))
            return true;
    }
    return false;
}

/* One from an earlier time, to which nothing leads, with the library of this build. */
static bool find_by_maps(struct target *target)
{
    for (const struct mapping *m = target->maps.list + 1; m < target->maps.list + target->maps.count; m++)
        if (m->kind == ANONYMOUS && m->flags == (PF_R | PF_X) && m->end - m->start == ISLAND_CODE_BYTES && m[-1].end == m->start
            && read_island(target, m->start - ISLAND_CODE) && target->island.start && target->island.build == build_of_this())
            return true;
    return false;
}

/* The process's maps, and its files if they changed. */
void read_target(struct target *target)
{
    free(target->maps.list);
    free(target->maps.hidden);
    target->maps = read_maps(target->process.witness);
    read_files(target);
}

void find_island(struct target *target)
{
    if (find_by_jumps(target) || find_by_maps(target))
        return;
    target->base = 0;
    target->island = (struct island){ 0 };
}

/* Stops the process, and reads what is known of it. */
void look(struct target *target)
{
    stop_all(&target->process);
    read_target(target);
    if (!has_code(target->process.witness, &target->code))
        target->code = find_code(target->process.id);
}

/* Whether the library is at work in this process. In a child of fork its finder is zero, unless it has a table of its own. */
bool is_traced(const struct target *target)
{
    uint64_t finder = 0;
    uint32_t is_on = 0;

    if (target->island.finder_at)
        get(target, target->island.finder_at, &finder, sizeof finder);
    return finder && try_get(target, finder, &is_on, sizeof is_on) && is_on;
}

/* The process's number as it sees itself. */
int inner_number(pid_t process)
{
    struct text status = read_text("/proc/%d/status", process);
    char *numbers = strstr(status.bytes, "\nNSpid:"), *end = numbers ? strchr(numbers + 1, '\n') : NULL, *last = end;

    while (last && last[-1] != '\t')
        last--;
    int number = last ? atoi(last) : process;
    free(status.bytes);
    return number;
}

void set_state(struct target *target, uint32_t state)
{
    target->island.state = state;
    put(target, target->base + offsetof(struct island, state), &state, sizeof state);
    target->jumps = false;
}

/* The jump from a function to its stub. */
void jump_of(const struct target *target, int k, uint8_t jump[JUMP_BYTES])
{
    int32_t distance = (int64_t)(target->base + ISLAND_STUBS + STUB_BYTES * k) - (int64_t)(target->island.function[k] + JUMP_BYTES);

    jump[0] = JUMP;
    memcpy(jump + 1, &distance, sizeof distance);
}

/* Makes all functions jump to their stubs, or gives them back their own bytes. malloc comes last, and goes first. */
void set_jumps(struct target *target, bool is_on)
{
    const struct island *island = &target->island;

    target->jumps = is_on;
    for (int n = 0; n < FUNCTIONS; n++) {
        int k = is_on ? FUNCTIONS - 1 - n : n;
        uint8_t jump[JUMP_BYTES];
        if (!island->saved_bytes[k])
            continue;
        jump_of(target, k, jump);
        put_text(target, island->function[k], is_on ? jump : island->saved[k], sizeof jump);
        call_step();
    }
}

/* In the one thread that is stopped, if it may be called. */
static bool call_thread(struct target *target, const struct request_of_call *request, int64_t *result)
{
    struct call call = { .thread = target->process.threads };

    look_at_thread(&call, &target->process);
    if (!find_owner(&call, 1, &target->maps))
        return false;
    make_calls(&call, 1, &target->code, request);
    *result = call.result;
    return !call.refusal;
}

/* Has the process make a call: one of its threads, which is stopped alone. Gives false if none can be called just now. */
bool call_process(struct target *target, struct request_of_call request, int64_t *result)
{
    char path[64];
    bool is_made = false;
    int tried = 0;
    struct dirent *entry;

    snprintf(path, sizeof path, "/proc/%d/task", target->process.id);
    DIR *tasks = opendir(path);
    while (tasks && !is_made && tried < MOST_CALLED && (entry = readdir(tasks))) {
        pid_t thread = atoi(entry->d_name);
        char state = thread > 0 ? state_of(target->process.id, thread) : 0;
        if ((state != 'R' && state != 'S') || !stop_one(&target->process, thread))
            continue;
        tried++;
        is_made = call_thread(target, &request, result);
        let_go(&target->process);
        end_if_asked();
    }
    if (tasks)
        closedir(tasks);
    return is_made;
}
