/* Segments of mimalloc, their slices and pages (src/segment.c). Slices in a row are a page or are free: the first one has their number, the last one leads
 * back to it. */
#include <stdlib.h>

#include "mimalloc.h"

/* Offsets in mi_segment_t. */
enum { TO_USED = 208, TO_SEGMENT_COOKIE = 216, TO_SLICES = 224, TO_INFO = 232, TO_KIND = 240, TO_ENTRIES = 248, TO_OWNER = 256 };
/* Offsets in mi_page_t, by words. */
enum { TO_COUNT = 0, TO_CAPACITY = 8, TO_USED_AND_SIZE = 24, TO_PAGES_HEAP = 48 };

/* src/segment.c, _mi_segment_page_start and _mi_segment_page_start_from_slice */
static uint64_t first_offset_2_0(uint64_t size) { return size >= 8 && size <= 1024 ? 384 : 0; }

static uint64_t first_offset_2_1(uint64_t size)
{
    return size < 8 ? 0 : size <= 64 ? 3 * size : size <= 512 ? size : 0;
}

static const struct mi_layout layouts[] = { { "mimalloc 2.0", first_offset_2_0 }, { "mimalloc 2.1", first_offset_2_1 } };

static int has_words(struct mimalloc *mi, struct mi_segment *s)
{
    uint64_t info, kind, first;

    if (!read_word(mi->heap, s->start + TO_USED, &s->used) || !read_word(mi->heap, s->start + TO_SLICES, &s->slices)
        || !read_word(mi->heap, s->start + TO_INFO, &info) || !read_word(mi->heap, s->start + TO_KIND, &kind)
        || !read_word(mi->heap, s->start + TO_ENTRIES, &s->entries) || !read_word(mi->heap, s->start + TO_OWNER, &s->thread)
        || !read_word(mi->heap, s->start + SLICES_AT, &first))
        return 0;
    s->is_huge = kind & UINT32_MAX;
    return info == 1 && s->is_huge <= 1 && first == 1 && s->slices > 1 && s->slices < (uint64_t)1 << 32
        && s->entries == (s->slices < SLICES ? s->slices : SLICES) && (s->is_huge || s->slices == SLICES);
}

static int is_cookie(const struct mimalloc *mi, uint64_t cookie)
{
    for (size_t i = 0; i < mi->heap_count; i++)
        if (mi->heaps[i].cookie == cookie)
            return 1;
    return 0;
}

/* A segment has its cookie and the words of one, or neither. */
static int look_at(struct mimalloc *mi, uint64_t at)
{
    struct mi_segment s = { .start = at };
    int is_one = has_words(mi, &s), fits;
    uint64_t cookie;

    if (!read_word(mi->heap, at + TO_SEGMENT_COOKIE, &cookie) || !cookie)
        return !is_one || !mi->heap_count;
    cookie ^= at;
    fits = is_cookie(mi, cookie);
    if (!is_one && !fits)
        return 1;
    mi->segments = grown(mi->segments, mi->segment_count, sizeof *mi->segments);
    mi->segments[mi->segment_count++] = s;
    if (!mi->cookie)
        mi->cookie = cookie;
    return is_one && fits && cookie == mi->cookie;
}

/* Finds all, and says whether they are of one mimalloc, and there are any. */
int find_segments(struct mimalloc *mi)
{
    const struct segment *s;
    size_t next = 0;
    int are_right = 1;

    while ((s = next_writable(mi->heap, &next)))
        for (uint64_t at = (s->start + SEGMENT - 1) & -(uint64_t)SEGMENT; at >= s->start && at - s->start < s->size;
             at = next_multiple(mi->heap, at, SEGMENT)) {
            take_of(mi->heap, mi->heap_count);
            are_right &= look_at(mi, at);
        }
    return are_right && mi->segment_count;
}

/* mimalloc's sizes have three bits, but for blocks with a page of their own, which are whole pages. */
static int can_be_size(uint64_t size, uint64_t reserved)
{
    uint64_t words = size / 8, low = words ? 63 - __builtin_clzll(words) : 0;

    if (reserved == 1 && size % PAGE == 0)
        return 1;
    return size && size % 8 == 0 && (low < 3 || words % ((uint64_t)1 << (low - 2)) == 0);
}

static uint64_t place_of_slice(const struct mi_segment *s, uint64_t slice)
{
    return s->start + SLICES_AT + PAGE_BYTES * slice;
}

/* Whether the page is of a heap, or of none as its segment is of no thread. */
static int count_page(struct mimalloc *mi, const struct mi_segment *s, uint64_t heap, struct mi_page *p)
{
    struct mi_heap *h = heap ? known_heap(mi, heap) : NULL;

    if (h) {
        h->pages++;
        p->thread = h->thread;
    }
    return h || (!heap && !s->thread);
}

/* Reads a page: how many blocks it may have follows from their size. */
static int read_page(struct mimalloc *mi, const struct mi_segment *s, uint64_t slice, uint64_t count, struct mi_page *p)
{
    uint64_t record = place_of_slice(s, slice), capacity, sizes, size, start = s->start + slice * SLICE, reserved;

    *p = (struct mi_page){ .record = record, .limit = start + count * SLICE };
    if (!read_word(mi->heap, record + TO_CAPACITY, &capacity) || !read_word(mi->heap, record + TO_USED_AND_SIZE, &sizes))
        return 0;
    size = sizes >> 32;
    p->start = start + mi->layout->first_offset(size);
    p->size = size >= (uint64_t)2 << 30 ? p->limit - start : size;
    p->count = capacity >> 16 & UINT16_MAX, reserved = capacity >> 32 & UINT16_MAX, p->used = sizes & UINT32_MAX;
    p->end = p->start + p->count * p->size;
    return can_be_size(p->size, reserved) && reserved == (uint16_t)((p->limit - p->start) / p->size) && p->count <= reserved && p->end <= p->limit
        && p->used <= p->count;
}

static int take_page(struct mimalloc *mi, const struct mi_segment *s, uint64_t slice, uint64_t count)
{
    struct mi_page p;
    uint64_t heap;

    if (!read_page(mi, s, slice, count, &p) || !read_word(mi->heap, p.record + TO_PAGES_HEAP, &heap) || !count_page(mi, s, heap, &p))
        return 0;
    p.free = bits_for(mi->heap, p.count);
    if (!p.free)
        return 0;
    mi->pages = grown(mi->pages, mi->page_count, sizeof *mi->pages);
    mi->pages[mi->page_count++] = p;
    return 1;
}

/* Whether the last slice leads back to the first: of a huge segment it may be one that is not there. */
static int leads_back(struct mimalloc *mi, const struct mi_segment *s, uint64_t slice, uint64_t count)
{
    uint64_t last = slice + count - 1, back;

    if (last > s->entries)
        last = s->entries;
    return last == slice || (read_word(mi->heap, place_of_slice(s, last), &back) && back == (PAGE_BYTES * (last - slice)) << 32);
}

/* Slices from this one on, in a row: gives how many, or 0 if they can't be. Free ones have a size of 0, but in a segment that is kept for later. */
static uint64_t take_slices(struct mimalloc *mi, const struct mi_segment *s, uint64_t slice, uint64_t *used)
{
    uint64_t count, sizes;

    if (!read_word(mi->heap, place_of_slice(s, slice), &count) || !count || count > s->slices - slice
        || !read_word(mi->heap, place_of_slice(s, slice) + TO_USED_AND_SIZE, &sizes) || !leads_back(mi, s, slice, count))
        return 0;
    sizes >>= 32;
    if (sizes > 1) {
        ++*used;
        if (!take_page(mi, s, slice, count))
            tell_odd(mi->heap, "the page at 0x%llx has sizes that don't fit", (unsigned long long)place_of_slice(s, slice));
    } else if (sizes == 1 && (s->thread || s->used)) {
        tell_odd(mi->heap, "the slices at 0x%llx are neither free nor of a page", (unsigned long long)place_of_slice(s, slice));
    } else {
        add_unused(mi->heap, s->start + slice * SLICE, s->start + (slice + count) * SLICE);
    }
    return count;
}

/* How many pages of a segment fit by the layout. */
static uint64_t count_fitting(struct mimalloc *mi, const struct mi_segment *s)
{
    uint64_t fitting = 0, count, sizes;
    struct mi_page p;

    for (uint64_t slice = 1; slice < s->entries; slice += count) {
        if (!read_word(mi->heap, place_of_slice(s, slice), &count) || !count || count > s->slices - slice
            || !read_word(mi->heap, place_of_slice(s, slice) + TO_USED_AND_SIZE, &sizes))
            return fitting;
        fitting += sizes >> 32 > 1 && read_page(mi, s, slice, count, &p);
    }
    return fitting;
}

static uint64_t count_all_fitting(struct mimalloc *mi, const struct mi_layout *layout)
{
    uint64_t fitting = 0;

    mi->layout = layout;
    for (size_t i = 0; i < mi->segment_count; i++)
        fitting += count_fitting(mi, mi->segments + i);
    return fitting;
}

/* Takes the layout by which most pages fit. */
void find_layout(struct mimalloc *mi)
{
    const struct mi_layout *best = layouts;
    uint64_t most = count_all_fitting(mi, best);

    for (size_t i = 1; i < sizeof layouts / sizeof *layouts; i++) {
        uint64_t fitting = count_all_fitting(mi, layouts + i);
        if (fitting > most) {
            best = layouts + i;
            most = fitting;
        }
    }
    mi->layout = best;
    mi->heap->name = best->name;
}

static void take_segment(struct mimalloc *mi, const struct mi_segment *s)
{
    uint64_t used = 0, count;

    for (uint64_t slice = 1; slice < s->entries; slice += count) {
        count = take_slices(mi, s, slice, &used);
        if (!count) {
            tell_odd(mi->heap, "slice %llu of the segment at 0x%llx does not fit", (unsigned long long)slice, (unsigned long long)s->start);
            return;
        }
    }
    if (used != s->used)
        tell_odd(mi->heap, "the segment at 0x%llx has %llu pages, and counts %llu", (unsigned long long)s->start, (unsigned long long)used,
                 (unsigned long long)s->used);
    add_unused(mi->heap, s->start, s->start + SLICE);
}

void take_segments(struct mimalloc *mi)
{
    for (size_t i = 0; i < mi->segment_count; i++)
        take_segment(mi, mi->segments + i);
    if (mi->page_count)
        qsort(mi->pages, mi->page_count, sizeof *mi->pages, by_start);
}
