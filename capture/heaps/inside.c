/* Which threads may be at work in an allocator: by what they run, and what a signal interrupted. */
#include <stdlib.h>

#include "heaps.h"

/* Linux, struct user_regs_struct, in words */
enum { ORIG_RAX = 15, RIP = 16, RSP = 19 };
/* Linux, struct rt_sigframe: from its start, the words of struct ucontext that are the same of each, and of the
 * registers three and how many there are */
enum { TO_UC_FLAGS = 8, MOST_UC_FLAGS = 7, TO_UC_LINK = 16, TO_SAVED = 48, SAVED = 23, TO_SAVED_RSP = 168,
       TO_SAVED_RIP = 176, TO_SAVED_CS = 192, USER_CS = 0x33 };

/* Is it in a system call that no allocator makes? */
static int is_elsewhere(const struct thread *thread)
{
    /* mmap, mprotect, munmap, brk, sched_yield, mremap, madvise, futex, getcpu */
    static const int64_t of_allocators[] = { 9, 10, 11, 12, 24, 25, 28, 202, 309 };
    int64_t call = thread->words[ORIG_RAX];

    for (size_t i = 0; i < sizeof of_allocators / sizeof *of_allocators; i++)
        if (call == of_allocators[i])
            return 0;
    return call >= 0;
}

static int is_in(const struct core *core, const struct part *file, uint64_t address)
{
    const struct part *part = part_at(&core->parts, address);

    return part && !strcmp(part->path, file->path);
}

/* Whether code of the file was running, or may be returned to. */
static int runs_in(struct other_heap *heap, const struct moment *m, const struct part *file)
{
    enum { STACK = 8192 };
    uint64_t value;

    if (is_in(heap->core, file, m->rip))
        return 1;
    for (uint64_t at = m->rsp; at - m->rsp < STACK && read_word(heap, at, &value); at += 8)
        if (is_in(heap->core, file, value))
            return 1;
    return 0;
}

/* What the thread runs now. */
struct moment moment_of(const struct thread *thread)
{
    return (struct moment){ .rip = thread->words[RIP], .rsp = thread->words[RSP] & -(uint64_t)8 };
}

static int is_signal_frame(struct other_heap *heap, uint64_t at)
{
    uint64_t selectors, flags, link;

    return read_word(heap, at + TO_SAVED_CS, &selectors) && (selectors & UINT16_MAX) == USER_CS
        && read_word(heap, at + TO_UC_FLAGS, &flags) && flags <= MOST_UC_FLAGS && read_word(heap, at + TO_UC_LINK, &link)
        && !link;
}

/* Goes on to what a signal interrupted, whose handler runs or has called what runs; says whether there is one. */
int go_to_interrupted(struct other_heap *heap, struct moment *m)
{
    enum { HANDLER = 64 << 10, MOST_SIGNALS = 4 };
    uint64_t value;

    if (m->depth == MOST_SIGNALS)
        return 0;
    for (uint64_t at = m->rsp; at - m->rsp < HANDLER && read_word(heap, at, &value); at += 8)
        if (is_signal_frame(heap, at) && read_word(heap, at + TO_SAVED_RSP, &m->rsp)
            && read_word(heap, at + TO_SAVED_RIP, &m->rip)) {
            m->rsp &= -(uint64_t)8;
            m->saved = at + TO_SAVED;
            m->saved_count = SAVED;
            m->depth++;
            return 1;
        }
    return 0;
}

/* The file whose data has the address, or whose data that begins as zeros (.bss) may have it; or NULL. */
static const struct part *file_of(const struct core *core, uint64_t address)
{
    enum { MOST_ZEROS = 64 << 20 };
    const struct part *found = NULL;

    for (size_t i = 0; i < core->parts.count && core->parts.list[i].start <= address; i++)
        found = core->parts.list + i;
    return found && (address < found->end || address - found->end < MOST_ZEROS) ? found : NULL;
}

/* A system call in a handler says nothing of what the handler interrupted. */
static int may_be_inside(struct other_heap *heap, const struct thread *thread, const struct part *file)
{
    struct moment m = moment_of(thread);
    int is_inside = !is_elsewhere(thread) && (!file || runs_in(heap, &m, file));

    while (!is_inside && go_to_interrupted(heap, &m))
        is_inside = !file || runs_in(heap, &m, file);
    return is_inside;
}

/* Counts the threads that may be at work in the allocator that has data at the address. */
void count_inside(struct other_heap *heap, uint64_t address)
{
    const struct core *core = heap->core;
    const struct part *file = file_of(core, address);

    heap->is_inside = calloc(core->thread_count + 1, 1);
    if (!heap->is_inside)
        fail("out of memory");
    for (size_t i = 0; i < core->thread_count; i++) {
        heap->is_inside[i] = may_be_inside(heap, core->threads + i, file);
        heap->inside += heap->is_inside[i];
    }
}
