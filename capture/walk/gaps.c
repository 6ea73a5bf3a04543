/* Memory that was never touched: a core by leak_core has it in no segment, and says by a note of its own to which mappings it
 * belongs. Without it a heap would seem to end where its first such page is. */
#include <stdlib.h>
#include <string.h>

#include "walk.h"

enum { WORD = 8 };

/* A note: start and end of each mapping of private memory without a file that can be written, or that can't. */
void read_ranges(struct core *core, const struct note *note, int is_writable)
{
    for (uint64_t at = 0; note->size - at >= 2 * WORD; at += 2 * WORD) {
        struct range range = { .is_writable = is_writable };
        memcpy(&range.start, note->bytes + at, WORD);
        memcpy(&range.end, note->bytes + at + WORD, WORD);
        core->ranges = grown(core->ranges, core->range_count, sizeof *core->ranges);
        core->ranges[core->range_count++] = range;
    }
}

static void add_gap(struct core *core, uint64_t start, uint64_t end, int is_writable)
{
    core->segments = grown(core->segments, core->segment_count, sizeof *core->segments);
    core->segments[core->segment_count++] = (struct segment){ .start = start, .end = end, .is_writable = is_writable, .is_untouched = 1 };
}

/* Adds a segment without bytes for each gap of the range between the first `count` segments, from `next` on; gives the first
 * segment that ends after the range. */
static size_t fill_range(struct core *core, struct range range, size_t count, size_t next)
{
    uint64_t at = range.start;

    for (; next < count && core->segments[next].start < range.end; next++) {
        if (at < core->segments[next].start)
            add_gap(core, at, core->segments[next].start, range.is_writable);
        if (at < core->segments[next].end)
            at = core->segments[next].end;
        if (at >= range.end)
            return next;
    }
    if (at < range.end)
        add_gap(core, at, range.end, range.is_writable);
    return next;
}

void fill_gaps(struct core *core)
{
    size_t count = core->segment_count, next = 0;

    if (core->range_count)
        qsort(core->ranges, core->range_count, sizeof *core->ranges, by_start);
    for (size_t i = 0; i < core->range_count; i++)
        next = fill_range(core, core->ranges[i], count, next);
    if (core->segment_count > count)
        qsort(core->segments, core->segment_count, sizeof *core->segments, by_start);
}
