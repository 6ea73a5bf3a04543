/* A process that never called malloc: the main arena of glibc is there, and as it was at the start. */
#include <stdlib.h>

#include "walk.h"

/* Offsets in the arena from `next`, which leads to the arena itself, to attached_threads and system_mem; and where `next` is, by the
 * layouts of arenas.c (glibc, malloc/malloc.c, struct malloc_state). */
enum { TO_THREADS = 16, TO_SYSTEM_MEM = 24, TO_NEXT = 2064 };
static const uint64_t layouts[] = { 96, 88, 8 };
enum { LAYOUTS = sizeof layouts / sizeof *layouts };

static int is_zero(struct core *core, uint64_t from, uint64_t to)
{
    for (; from < to; from += 8)
        if (!is_word(core, from, 0))
            return 0;
    return 1;
}

/* Is this word the `next` of such an arena? Static data, in which nothing but this and one thread is set. */
static int is_unused_arena(struct core *core, uint64_t next, uint64_t layout)
{
    uint64_t start = next - TO_NEXT - layout;

    return is_word(core, next, start) && is_word(core, next + TO_THREADS, 1) && is_word(core, next + 8, 0)
        && is_word(core, next + TO_SYSTEM_MEM, 0) && is_zero(core, start, next);
}

/* Is the file glibc, or the static program that has it inside? */
static int may_be_libc(const struct core *core, const struct part *part)
{
    const char *name = part ? name_of(part) : "";

    return !strncmp(name, "libc.so.", 8) || !strncmp(name, "libc-2.", 7) || (part && is_static(&core->start, &core->parts));
}

/* Whether another mapped file has a malloc, or may have one: then the program's blocks are there. */
static const struct part *other_malloc(const struct core *core, const struct part *libc)
{
    enum { MOST_FILES = 1000 };
    size_t files = 0;

    for (const struct part *p = core->parts.list; p < core->parts.list + core->parts.count; p++)
        if (!p->offset && strcmp(p->path, libc->path) && strncmp(name_of(p), "ld-", 3)
            && (++files > MOST_FILES || may_export(p, "malloc")))
            return p;
    return NULL;
}

static int take_arena(struct heap *heap, uint64_t next)
{
    for (size_t k = 0; k < LAYOUTS; k++) {
        uint64_t start = next - TO_NEXT - layouts[k];
        if (!is_unused_arena(heap->core, next, layouts[k]) || !may_be_libc(heap->core, part_at(&heap->core->parts, start)))
            continue;
        heap->arenas = grown(heap->arenas, heap->arena_count, sizeof *heap->arenas);
        heap->arenas[heap->arena_count++] = (struct arena){ .start = start, .top_at = start + layouts[k] };
        return 1;
    }
    return 0;
}

static int find_in(struct heap *heap, const struct segment *s)
{
    uint64_t at = (s->start + 7) & -(uint64_t)8, value;

    for (; at - s->start < s->size && word(heap->core, at, &value); at += 8)
        if (at - value <= TO_NEXT + layouts[0] && at - value > TO_NEXT && take_arena(heap, at))
            return 1;
    return 0;
}

/* Takes the arena of a malloc that was never called, if no other is there. A malloc of the program's own is told by `own_malloc`. */
int is_malloc_unused(struct heap *heap)
{
    struct core *core = heap->core;
    size_t i = 0;

    while (i < core->segment_count && !(core->segments[i].is_writable && find_in(heap, core->segments + i)))
        i++;
    if (i == core->segment_count)
        return 0;
    core->own_malloc = other_malloc(core, part_at(&core->parts, heap->arenas[0].start));
    return heap->is_unused = !core->own_malloc;
}
