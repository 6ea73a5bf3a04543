/* The log, in mtrace's format (glibc, malloc/mtrace.c): blocks in use as `@ TEXT + 0xADDR 0xSIZE`, and what is free or malloc's
 * own as a block that comes and goes at once, which is how capture's logs say so. */
#include "log.h"

/* leak_find --skip-freed goes by allocations of less than 128 KiB. */
enum { MOST_PIECE = (128 << 10) - 16 };

struct writer {
    struct visitor visitor;     /* comes first */
    struct heap *heap;
    const struct old_log *old;
    struct names *names;
    size_t next;                /* the first old block that is not below those that were visited */
    struct totals totals;
};

static void put_size(uint64_t size)
{
    put_text("size ");
    put_number(size);
}

/* By its first word, if that is an address in a mapped file: of a C++ object its class's table, of others what tells
 * their kind. An address of code is written one further, as a caller's return address would be: so leak_lines tells the right
 * function. */
static void put_what(struct heap *heap, uint64_t start, uint64_t size)
{
    uint64_t first;
    const struct part *part = word(heap->core, start, &first) ? part_of(&heap->core->parts, first) : NULL;
    const struct segment *s = part ? segment_at(heap->core, first) : NULL;

    if (part && takes_path(&heap->core->parts, part, heap->core->file.size)) {
        put_text(part->path);
        put_hex(":[0x", first + part->bias + (s && s->is_code));
        put_text("]");
    } else {
        put_size(size);
    }
}

/* Its callers, if a table has them. Then a place in a file is a caller's, and no block has another one. */
static void put_name(struct writer *w, uint64_t start, uint64_t size)
{
    const struct block *found = name_of_block(w->names, w->heap->core, start, size);

    if (found)
        put_callers(&w->heap->core->parts, w->heap->core->file.size, found, w->names->head->depth);
    else
        put_size(size);
}

static void put_block(struct visitor *visitor, uint64_t start, uint64_t size)
{
    struct writer *w = (struct writer *)visitor;

    w->totals.blocks++;
    w->totals.bytes += size;
    while (w->next < w->old->count && w->old->list[w->next].start < start)
        w->next++;
    if (w->next < w->old->count && w->old->list[w->next].start == start && w->old->list[w->next].is_same)
        return;
    put_text("@ ");
    if (w->names->head)
        put_name(w, start, size);
    else
        put_what(w->heap, start, size);
    put_hex(" + 0x", start);
    put_hex(" 0x", size);
    put_text("\n");
}

static void put_free(uint64_t from, uint64_t to)
{
    uint64_t size;

    for (; from < to; from += size) {
        size = to - from < MOST_PIECE ? to - from : MOST_PIECE;
        put_hex("+ 0x", from);
        put_hex(" 0x", size);
        put_hex("\n- 0x", from);
        put_text("\n");
    }
}

/* Written where the core has bytes: elsewhere there is no word to be left out, and a size word may say anything. */
static void put_unused(struct visitor *visitor, uint64_t from, uint64_t to)
{
    struct writer *w = (struct writer *)visitor;
    const struct core *core = w->heap->core;

    w->totals.free_count += from < to;
    w->totals.free_bytes += to - from;
    for (size_t i = first_behind(core, from); i < core->segment_count && core->segments[i].start < to; i++) {
        const struct segment *s = core->segments + i;
        uint64_t end = s->start + s->size;
        put_free(from > s->start ? from : s->start, to < end ? to : end);
    }
}

/* Writes the arenas' own words as free, and nothing of their chunks. */
void write_arenas(struct heap *heap)
{
    struct writer w = { .visitor = { put_block, put_unused }, .heap = heap };

    visit_arenas(heap, &w.visitor);
}

static void pass_block(struct visitor *visitor, uint64_t start, uint64_t size)
{
    (void)visitor, (void)start, (void)size;
}

/* Writes what is free, and malloc's own words. */
void write_unused(struct heap *heap)
{
    struct writer w = { .visitor = { pass_block, put_unused }, .heap = heap };

    for (size_t i = 0; i < heap->others.count; i++) {
        put_hex("= leak_walk unused 0x", heap->others.list[i].anchor);
        put_text("\n");
    }
    visit_all(heap, &w.visitor);
}

/* How many things did not fit, which a thread at work may explain. */
static void put_odd(const struct other_heap *heap)
{
    put_text("= leak_walk odd ");
    put_number(heap->odd);
    put_text("\n");
}

/* Where heaps are tells one process from another. */
static void put_anchors(const struct heap *heap)
{
    if (!heap->wanting) {
        put_hex("= leak_walk arena 0x", main_arena(heap)->start);
        put_text("\n");
    }
    for (size_t i = 0; i < heap->others.count; i++) {
        put_hex("= leak_walk heap 0x", heap->others.list[i].anchor);
        put_text("\n");
        if (heap->others.list[i].odd)
            put_odd(heap->others.list + i);
    }
}

/* Writes what is in use and what is free; of blocks that the old log has too, nothing. */
struct totals write_log(struct heap *heap, const struct old_log *old, struct names *names)
{
    struct writer w = { .visitor = { put_block, put_unused }, .heap = heap, .old = old, .names = names };

    if (names->head)
        put_names_remark(names);
    put_anchors(heap);
    put_stacks_remark(&heap->core->stacks, unknown_stacks(&heap->core->stacks));
    visit_all(heap, &w.visitor);
    return w.totals;
}
