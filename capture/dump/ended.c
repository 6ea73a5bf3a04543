/* Stacks of threads that ended. glibc keeps them for threads to come, 40 MiB of them (nptl/allocatestack.c,
 * stack_cache), with all that was on them. They are left out up to the page of the thread's record, in which its result
 * may be.
 *
 * The record, struct pthread, is known by its words: its own address at its start and 16 bytes on (tcbhead_t, tcb and
 * self), then a link of glibc's list of stacks and the thread's id, which is 0 once the thread has ended, and -1 once
 * it was joined. Memory that the program gave as a stack is in no such list when the thread is joined, so what the
 * program has there since then stays. */
#include <elf.h>
#include <stdlib.h>
#include <string.h>

#include "dump.h"

/* Offsets in the record, in words: glibc 2.36, and others whose live threads have the same. */
enum { SELF = 2, LIST = 0x2c0 / 8, ID = 0x2d0 / 8, UPPER = 4 * PAGE, ALIGNMENT = 64 / 8 };

/* Whether a record begins there. */
static bool is_record(const uint64_t *words, uint64_t at)
{
    return words[0] == at && words[SELF] == at;
}

/* Whether the list's neighbors lead back to the link. */
static bool is_linked(const struct dead *dead, const uint64_t *record, uint64_t at)
{
    uint64_t link = at + LIST * 8, back, on;

    read_there(dead, record[LIST] + 8, &back, 1);
    read_there(dead, record[LIST + 1], &on, 1);
    return back == link && on == link;
}

/* The thread's id as it sees itself: the last of those that a container's process has. */
static int own_id(pid_t thread)
{
    struct text status = read_text("/proc/%d/status", thread);
    char *line = strstr(status.bytes, "\nNSpid:");
    int id = 0;

    if (line) {
        line[1 + strcspn(line + 1, "\n")] = 0;
        id = atoi(strrchr(line, '\t') + 1);
    }
    free(status.bytes);
    return id;
}

/* Whether the live thread's record has link and id where they are looked for. */
bool knows_records(const struct dead *dead, pid_t thread, uint64_t fs)
{
    uint64_t record[ID + 1];

    read_there(dead, fs, record, ID + 1);
    return fs % 64 == 0 && is_record(record, fs) && is_linked(dead, record, fs)
        && (int32_t)record[ID] == own_id(thread);
}

/* Where the page of an ended thread's record begins, if the mapping is its stack; else 0. */
static uint64_t ended_at(const struct dead *dead, const struct mapping *m)
{
    uint64_t top[UPPER / 8], start = m->end - UPPER;
    struct span stack;

    read_there(dead, start, top, UPPER / 8);
    for (size_t i = 0; i + ID < UPPER / 8; i += ALIGNMENT) {
        uint64_t at = start + i * 8;
        if (is_record(top + i, at) && (int32_t)top[i + ID] <= 0 && is_linked(dead, top + i, at)
            && stack_by_record(dead, at - 8, at, &stack) && stack.start <= m->start && stack.end == m->end)
            return at & -(uint64_t)PAGE;
    }
    return 0;
}

/* Looks at mappings in which no living thread has its record. */
void leave_ended_out(const struct dead *dead, const struct maps *maps)
{
    for (struct mapping *m = maps->list; m < maps->list + maps->count; m++) {
        if (m->kind != ANONYMOUS || !(m->flags & PF_W) || m->has_record || m->end - m->start < UPPER)
            continue;
        uint64_t end = ended_at(dead, m);
        m->low = end > m->low ? end : m->low;
        end_if_asked();
    }
}
