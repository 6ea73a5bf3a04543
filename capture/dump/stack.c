/* Dead stack: what lies below a thread's stack pointer is nobody's (System V ABI for x86-64, 3.2.2), but calls that
 * returned left pointers there, which hide what the program lost. The core leaves it out, as LeakSanitizer and valgrind
 * don't scan it.
 *
 * Memory is left out only where nothing else can lie: from the start of a mapping up to the lowest stack pointer in it,
 * where the mapping begins within the stack of a thread. glibc's guard below a stack makes it so. In doubt all of it
 * stays. */
#include <elf.h>
#include <stdlib.h>
#include <string.h>
#include <sys/ptrace.h>
#include <sys/uio.h>
#include <sys/user.h>

#include "dump.h"

enum { WORD = 8, RED_ZONE = 128, /* of a function that calls none (the same place of the ABI) */
       RECORD = 4096, MOST_AFTER_RECORD = 8192,
       STEP = 1 << 16, MOST_READ = 256 << 20 };

/* A thread's view of its stack. */
struct view {
    uint64_t sp, fs;            /* rsp and fs_base */
    uint64_t low;               /* below it no frame of this thread is */
    struct mapping *mapping;    /* which has the stack pointer, or NULL */
};

/* The mapping that has the address, or NULL. */
static struct mapping *mapping_of(const struct maps *maps, uint64_t address)
{
    size_t low = 0, high = maps->count;

    while (low < high) {
        size_t middle = low + (high - low) / 2;
        if (maps->list[middle].end <= address)
            low = middle + 1;
        else
            high = middle;
    }
    return low < maps->count && maps->list[low].start <= address ? maps->list + low : NULL;
}

/* The first region that ends after the address. */
static const struct region *region_from(const struct regions *regions, uint64_t address)
{
    size_t low = 0, high = regions->count;

    while (low < high) {
        size_t middle = low + (high - low) / 2;
        if (regions->list[middle].end <= address)
            low = middle + 1;
        else
            high = middle;
    }
    return regions->list + low;
}

/* Reads what is there of `count` words, and takes the rest for 0: to read a page that is not there would make one, or
 * wait for what stands in for it (userfaultfd(2)). */
void read_there(const struct dead *dead, uint64_t start, uint64_t *words, size_t count)
{
    const struct region *r = region_from(dead->regions, start), *last = dead->regions->list + dead->regions->count;
    uint64_t end = start + count * WORD;

    memset(words, 0, count * WORD);
    for (; r < last && r->start < end; r++) {
        uint64_t from = r->start > start ? r->start : start, to = r->end < end ? r->end : end;
        read_memory(dead->witness, from, (char *)words + (from - start), to - from);
    }
}

/* A thread's own record, glibc's struct pthread, is at fs_base, near the upper end of its stack. Two of its words are
 * start and size of the stack with its guard (stackblock, stackblock_size); which two, differs between releases. So it
 * is the only pair of words that fits, or the stack is not known. Words are looked at from `fs` on, at multiples of 8.
 * */
bool stack_by_record(const struct dead *dead, uint64_t sp, uint64_t fs, struct span *stack)
{
    uint64_t words[RECORD / WORD + 1], size = 0;
    int found = 0;

    if (sp >= fs || fs > INT64_MAX)
        return false;
    read_there(dead, (fs + WORD - 1) & -(uint64_t)WORD, words, RECORD / WORD + 1);
    for (const uint64_t *w = words; w < words + RECORD / WORD; w++) {
        if (!w[0] || w[0] > sp || w[1] >= fs || w[0] + w[1] <= fs || w[0] + w[1] - fs > MOST_AFTER_RECORD)
            continue;
        stack->start = w[0], size = w[1];
        found++;
    }
    stack->end = stack->start + size;
    return found == 1;
}

/* A signal's frame on an alternate stack that lies within this one, as an array of one of its frames, has where that
 * stack is (Linux, struct ucontext, uc_stack), and the stack pointer of what it interrupted, whose frames lie below and
 * live. */
static uint64_t below_frame(const uint64_t *words, uint64_t at, const struct span *stack, uint64_t sp)
{
    enum { FLAGS = 1, SIZE = 2, RSP = 18, STATES = 3 };
    uint64_t start = words[0], size = words[SIZE], old = words[RSP];
    uint32_t flags = words[FLAGS] & INT32_MAX;      /* without SS_AUTODISARM; the upper half is padding */

    if (start < stack->start || start > at || at - start >= size || size > stack->end - start || flags >= STATES
        || old < stack->start + RED_ZONE || old >= sp)
        return UINT64_MAX;
    return old - RED_ZONE;
}

/* The lowest of `low` and what such frames say. If there is too much to look at, all of the stack is taken to live. */
static uint64_t below_frames(struct dead *dead, const struct span *stack, uint64_t sp, uint64_t low)
{
    enum { FRAME = 19 };        /* words of a frame that are looked at */
    static uint64_t words[STEP / WORD + FRAME];
    const struct region *r = region_from(dead->regions, sp), *last = dead->regions->list + dead->regions->count;
    uint64_t at = (sp + WORD - 1) & -(uint64_t)WORD;

    for (; r < last && r->start < stack->end && at < stack->end; r += at >= r->end) {
        at = at > r->start ? at : r->start;
        size_t count = ((r->end < stack->end ? r->end : stack->end) - at + WORD - 1) / WORD;
        count = count < STEP / WORD ? count : STEP / WORD;
        if (dead->left < count * WORD)
            return stack->start;
        dead->left -= count * WORD;
        read_there(dead, at, words, count + FRAME);
        for (size_t i = 0; i < count; i++) {
            uint64_t below = below_frame(words + i, at + i * WORD, stack, sp);
            low = below < low ? below : low;
        }
        at += count * WORD;
    }
    return low;
}

/* Whether the code is the C library's, whose system calls have all they need in registers. Another function that makes
 * one itself, and calls none, may keep words in its red zone meanwhile. */
static bool is_of_libc(const struct maps *maps, uint64_t rip)
{
    const struct mapping *m = mapping_of(maps, rip);
    const char *slash = m ? strrchr(m->path, '/') : NULL;

    return slash
        && (!strncmp(slash, "/libc.so", 8) || !strncmp(slash, "/libc-2", 7) || !strncmp(slash, "/libpthread", 11));
}

static struct view view_of(const struct maps *maps, pid_t thread)
{
    struct user_regs_struct r;
    struct iovec set = { &r, sizeof r };
    struct view view = { 0 };

    if (ptrace(PTRACE_GETREGSET, thread, (void *)NT_PRSTATUS, &set) || set.iov_len != sizeof r || r.rsp < RED_ZONE)
        return view;
    bool is_in_call = (int64_t)r.orig_rax >= 0 && is_of_libc(maps, r.rip);
    view = (struct view){ r.rsp, r.fs_base, is_in_call ? r.rsp : r.rsp - RED_ZONE, mapping_of(maps, r.rsp) };
    return view;
}

/* Where the thread's mapping begins within its stack, lets the mapping begin at the lowest place that the thread may
 * use. */
static void leave_out(struct dead *dead, struct view *view)
{
    struct mapping *m = view->mapping;
    struct span stack;

    if (!m || m->kind != ANONYMOUS || !(m->flags & PF_W))
        return;
    if (!stack_by_record(dead, view->sp, view->fs, &stack)) {
        if (strcmp(m->path, "[stack]"))
            return;
        stack = (struct span){ m->start, m->end };
    }
    view->low = below_frames(dead, &stack, view->sp, view->low);
    if (stack.start <= m->start && strcmp(m->path, "[heap]") && view->low > m->low)
        m->low = view->low;
}

/* Other threads may be on the same memory, as one by clone on an array in a frame of this one. */
static void keep_used(const struct view *view)
{
    struct mapping *m = view->mapping;

    if (m && m->low > view->low)
        m->low = view->low > m->start ? view->low : m->start;
}

/* Sets where each mapping begins to count. */
void leave_dead_out(const struct process *process, struct maps *maps, const struct regions *regions)
{
    struct dead dead = { process->witness, regions, MOST_READ };
    struct view *views = calloc(process->count, sizeof *views);

    if (!views)
        fail("no memory for a list");
    for (size_t i = 0; i < process->count; i++) {
        views[i] = view_of(maps, process->threads[i].id);
        leave_out(&dead, views + i);
        struct mapping *own = mapping_of(maps, views[i].fs);
        if (own)
            own->has_record = true;
    }
    if (knows_records(&dead, process->threads[0].id, views[0].fs))
        leave_ended_out(&dead, maps);
    for (size_t i = 0; i < process->count; i++)
        keep_used(views + i);
    free(views);
    step("dead stack is left out");
}
