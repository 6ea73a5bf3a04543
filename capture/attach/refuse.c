/* What can't be made safe, and is refused before anything is changed. */
#define _GNU_SOURCE
#include <dirent.h>
#include <linux/kcmp.h>
#include <stdio.h>
#include <stdlib.h>
#include <string.h>
#include <sys/statfs.h>
#include <sys/syscall.h>
#include <unistd.h>

#include "attach.h"

enum { PROC_MAGIC = 0x9fa0, MOST_CODE = 64 << 20, SHORT_REACH = 130, LONGEST = 32 };

/* The library is loaded by its name below /proc, as the process sees it. */
static bool has_proc(pid_t process)
{
    struct statfs about;
    char path[64];

    snprintf(path, sizeof path, "/proc/%d/root/proc", process);
    return !statfs(path, &about) && about.f_type == PROC_MAGIC;
}

/* Before it is stopped. */
void refuse_untraceable(pid_t process)
{
    char state = state_of(process, process);

    if (!state)
        fail("no process %d", process);
    if (process == getpid() || process == getppid())
        fail("process %d is this program", process);
    if (state == 'T' || state == 't')
        fail("process %d is stopped, by a signal or by a tracer: it would load nothing", process);
    if (state == 'Z')
        fail("process %d has ended", process);
    if (!has_proc(process))
        fail("process %d has no /proc mounted, by which it could load the library", process);
}

static void refuse_thread(pid_t process, pid_t thread)
{
    struct text status = read_text("/proc/%d/task/%d/status", process, thread);

    if (number_after(status, "\nSeccomp:", 10))
        fail("thread %d of process %d is under seccomp, which might end the process for the calls that loading needs", thread, process);
    if (tells_shadow_stack(&status))
        fail("thread %d of process %d has a shadow stack, which knows nothing of the jumps", thread, process);
    free(status.bytes);
}

/* Any thread may be the one that loads the library. */
void refuse_threads(pid_t process)
{
    char path[64];
    struct dirent *entry;

    snprintf(path, sizeof path, "/proc/%d/task", process);
    DIR *tasks = opendir(path);
    if (!tasks)
        fail("no process %d", process);
    while ((entry = readdir(tasks))) {
        end_if_asked();
        if (atoi(entry->d_name) > 0)
            refuse_thread(process, atoi(entry->d_name));
    }
    closedir(tasks);
}

struct sharing {
    const struct process *process;
    pid_t other;                /* 0: none */
};

/* kcmp(2): who may not look at a process can't know. */
static void find_sharer(void *argument)
{
    struct sharing *sharing = argument;
    struct dirent *entry;
    DIR *processes = opendir("/proc");

    while (processes && !sharing->other && (entry = readdir(processes))) {
        pid_t other = atoi(entry->d_name);
        if (other > 0 && other != sharing->process->id
            && !syscall(SYS_kcmp, sharing->process->witness, other, KCMP_VM, 0, 0))
            sharing->other = other;
    }
    if (processes)
        closedir(processes);
}

/* Who shares the memory without being a thread (clone(2), CLONE_VM) is not stopped, and would run what is just written. A
 * child of vfork is none: while it is there the thread that made it does not stop. */
void refuse_sharers(const struct process *process)
{
    struct sharing sharing = { process, 0 };

    apart(find_sharer, &sharing);
    if (sharing.other)
        fail("process %d shares its memory with process %d, which does not stop with it", process->id,
             sharing.other);
}

/* Whether an address is among the first instructions of a function, which won't be there any more: then its name. */
static const char *taken_name(const struct target *target, uint64_t address)
{
    for (int k = 0; k < FUNCTIONS; k++)
        if (address > target->entries[k].at && address < target->entries[k].at + target->entries[k].taken)
            return function_names[k];
    return NULL;
}

/* Jumps and calls by a distance of 32 bits, at each byte of libc's code. */
static void refuse_far_branches(const struct target *target, const uint8_t *bytes, size_t size)
{
    for (size_t at = 2; at + 4 <= size; at++) {
        int32_t distance;
        uint8_t before = bytes[at - 1];
        if (before != 0xe8 && before != 0xe9 && (bytes[at - 2] != 0x0f || before < 0x80 || before > 0x8f))
            continue;
        memcpy(&distance, bytes + at, sizeof distance);
        const char *name = taken_name(target, target->libc.code.start + at + 4 + (int64_t)distance);
        if (name)
            fail("process %d: code of libc jumps into the first instructions of %s", target->process.id, name);
    }
}

static void refuse_near_branch(const struct target *target, uint64_t behind, uint8_t distance)
{
    const char *name = taken_name(target, behind + (int8_t)distance);

    if (name)
        fail("process %d: %s jumps into its own first instructions", target->process.id, name);
}

/* What may be a jump by a distance of 8 bits, at each byte. */
static void refuse_any_near(const struct target *target, const uint8_t *bytes, uint64_t from, uint64_t end)
{
    for (uint64_t at = from; at < end; at++) {
        uint8_t op = bytes[at - target->libc.code.start];
        if ((op >= 0x70 && op <= 0x7f) || op == 0xeb || (op >= 0xe0 && op <= 0xe3))
            refuse_near_branch(target, at + 2, bytes[at + 1 - target->libc.code.start]);
    }
}

/* Jumps by a distance of 8 bits in the function itself, as far behind its first instructions as such a one reaches. */
static void refuse_near_branches(const struct target *target, const uint8_t *bytes, const struct entry *entry)
{
    const struct span *code = &target->libc.code;
    uint64_t size = entry->taken + SHORT_REACH, end;

    size = entry->size && entry->size < size ? entry->size : size;
    end = code->end - LONGEST < entry->at + size ? code->end - LONGEST : entry->at + size;
    for (uint64_t at = entry->at; at < end;) {
        const uint8_t *here = bytes + (at - code->start);
        struct instruction i = decode(here);
        if (!i.bytes) {
            refuse_any_near(target, bytes, at, end);
            return;
        }
        if (i.branch == 1)
            refuse_near_branch(target, at + i.bytes, here[i.bytes - 1]);
        at += i.bytes;
    }
}

/* Refuses a libc that jumps to where a function's jump will be. */
void refuse_branches(const struct target *target)
{
    const struct span *code = &target->libc.code;
    size_t size = code->end - code->start;
    uint8_t *bytes = size < MOST_CODE ? malloc(size + 1) : NULL;

    if (!bytes)
        fail("no memory for the code of libc");
    get(target, code->start, bytes, size);
    refuse_far_branches(target, bytes, size);
    for (int k = 0; k < FUNCTIONS; k++)
        if (target->entries[k].taken)
            refuse_near_branches(target, bytes, target->entries + k);
    free(bytes);
}
