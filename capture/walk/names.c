/* --names: who asked for a block, by a table of leak_trace.so of the same moment. Which blocks there are, how large they are
 * and what is free is the walk's alone. So an event that the table missed costs a block its callers, and nothing else. */
#include <stdlib.h>

#include "log.h"

enum { LEAST_USABLE = 24, SIZE_WORD = 8, ALIGNMENT = 16, LEAST_CHUNK = 32, IS_MMAPPED = 2, MOST_STRANGE = 16 };

/* Keeps of each start the entry, if there is one. If there are more, a free passed leak_trace by, and nobody knows who has
 * the block now. */
static void keep_single(struct names *names)
{
    size_t left = 0;

    for (size_t i = 0, next; i < names->count; i = next) {
        for (next = i + 1; next < names->count && names->list[next].start == names->list[i].start;)
            next++;
        if (next == i + 1)
            names->list[left++] = names->list[i];
    }
    names->count = left;
}

struct names read_names(const char *path, const struct core *core)
{
    struct entries entries = read_entries(map_file(path), &core->parts);
    struct names names = { .path = path, .head = entries.head, .list = entries.list, .count = entries.count,
                           .entries = entries.count };

    for (size_t i = 0; i < names.count; i++)
        if (names.moment < names.list[i].stamp)
            names.moment = names.list[i].stamp;
    if (names.count)
        qsort(names.list, names.count, sizeof *names.list, by_start_and_stamp);
    keep_single(&names);
    return names;
}

static const struct block *entry_at(const struct names *names, uint64_t start)
{
    size_t low = 0, high = names->count;

    while (low < high) {
        size_t middle = low + (high - low) / 2;
        if (names->list[middle].start < start)
            low = middle + 1;
        else
            high = middle;
    }
    return low < names->count && names->list[low].start == start ? names->list + low : NULL;
}

/* Whether malloc gives a block of this usable size for what was asked for (glibc, malloc/malloc.c, request2size): the rest
 * stays with it if it is less than a chunk, or with a mapping of its own less than a page. An aligned mapping may have begun
 * as much before. */
static int fits(struct core *core, const struct block *asked, uint64_t size)
{
    uint64_t start = asked->start, alignment = start & -start, rest = size - asked->size, head = 0;
    uint64_t whole = (asked->size + SIZE_WORD + ALIGNMENT - 1) / ALIGNMENT * ALIGNMENT - SIZE_WORD;
    uint64_t pages = (asked->size + PAGE - 1) / PAGE * PAGE + SIZE_WORD;

    if (asked->size > size)
        return 0;
    if (word(core, start - SIZE_WORD, &head) && head & IS_MMAPPED)
        return rest < PAGE + (alignment < PAGE ? PAGE : alignment);
    if (start % PAGE == 0 && size >= pages && size - pages <= LEAST_CHUNK)
        return 1;       /* by pvalloc */
    return size - (whole < LEAST_USABLE ? LEAST_USABLE : whole) <= LEAST_CHUNK;
}

/* Whether the block is of another heap than glibc's, whose sizes are less than twice those that were asked for. */
static int is_of_others(const struct names *names, uint64_t start)
{
    return names->others && names->others->count && bsearch(&start, names->others->list, names->others->count, sizeof *names->others->list, by_start);
}

static int fits_other(const struct block *asked, uint64_t size)
{
    return asked->size <= size && size - asked->size <= size / 2 + ALIGNMENT;
}

/* The table's entry of a block of the heap, or NULL. */
const struct block *name_of_block(struct names *names, struct core *core, uint64_t start, uint64_t size)
{
    const struct block *found = names->head ? entry_at(names, start) : NULL;

    if (!found || !(is_of_others(names, start) ? fits_other(found, size) : fits(core, found, size)))
        return NULL;
    return found;
}

struct counter {
    struct visitor visitor;     /* comes first */
    struct names *names;
    struct core *core;
};

static void count_block(struct visitor *visitor, uint64_t start, uint64_t size)
{
    struct counter *counter = (struct counter *)visitor;

    counter->names->fitting += name_of_block(counter->names, counter->core, start, size) != NULL;
}

static void pass_unused(struct visitor *visitor, uint64_t from, uint64_t to)
{
    (void)visitor, (void)from, (void)to;
}

/* Counts the entries whose blocks the heap has, and refuses a table of which it has few: another allocator's. */
void match_names(struct heap *heap, struct names *names)
{
    struct counter counter = { { count_block, pass_unused }, names, heap->core };

    names->others = &heap->others.blocks;
    visit_all(heap, &counter.visitor);
    if (names->entries - names->fitting > MOST_STRANGE + names->entries / 2)
        fail("%s: of %zu blocks of the table the heap has %zu: they are another allocator's", names->path, names->entries,
             names->fitting);
}

/* Says by a remark of the log that texts are callers, since when, and how many blocks may lack theirs. */
void put_names_remark(const struct names *names)
{
    put_text("= leak_log names since ");
    put_number(names->head->began);
    put_hex(" moment 0x", names->moment);
    put_text("\n");
    if (names->head->missed) {
        put_text("= leak_log missed ");
        put_number(names->head->missed);
        put_text("\n");
    }
}
