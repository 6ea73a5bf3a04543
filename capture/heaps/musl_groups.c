/* Groups of musl's mallocng and their slots (src/malloc/mallocng/{meta.h,malloc.c,free.c,aligned_alloc.c,donate.c}).
 *
 * A meta leads to its group, which leads back. It says by masks which slots are in use; each such slot tells its own number and where its
 * block begins, and none that is free does. malloc writes that once it has unlocked, and free unwrites it before it sets the bit: then a
 * thread has the slot in hand. The size that was asked for is in few bits that nothing checks: a block goes on to its slot's end. */
#include "musl.h"

/* In the top bits of a slot's byte of its number: how the rest is laid out. */
enum { IS_NEST = 6, BEGINS_LATER = 7 << 5, NUMBER = 31 };

static const uint16_t units_of[CLASSES] = {
    1, 2, 3, 4, 5, 6, 7, 8, 9, 10, 12, 15, 18, 20, 25, 31, 36, 42, 50, 63, 72, 84, 102, 127, 146, 170, 204, 255, 292, 340, 409, 511, 584, 682,
    818, 1023, 1169, 1364, 1637, 2047, 2340, 2730, 3276, 4095, 4680, 5460, 6552, 8191 };

/* The four bytes before a block or a slot (meta.h, get_meta): an empty one, its number, and two of its offset in units. */
struct head {
    unsigned is_long, number, offset;
    uint64_t before;            /* the four bytes before these: the offset, if it needs so many */
};

static int read_head(struct musl *musl, uint64_t start, struct head *head)
{
    uint64_t value;

    if (!read_word(musl->heap, start - 8, &value))
        return 0;
    *head = (struct head){ value >> 32 & 255, value >> 40 & 255, value >> 48, value & UINT32_MAX };
    return 1;
}

/* Whether a block of this slot begins there, by its own words. */
static int begins_at(struct musl *musl, const struct group *g, unsigned number, uint64_t start, struct head *head)
{
    uint64_t units = (start - g->memory - UNIT) / UNIT;

    if (!read_head(musl, start, head) || (head->number & NUMBER) != number)
        return 0;
    if (head->is_long)
        return !head->offset && head->before > UINT16_MAX && head->before == units;
    return head->offset == units;
}

/* Whether a block of the first slot begins later on, though the slot's own head, all zeros, says that it begins at once. malloc begins a block at one
 * of the first 256 units, or aligned. */
static int begins_later_too(struct musl *musl, const struct group *g)
{
    enum { MOST_UNITS = 256 };
    uint64_t start = g->memory + UNIT, end = start + g->stride - IN_BAND, step;
    struct head head;

    for (uint64_t at = start + UNIT; at < end; at += step) {
        step = at - start < MOST_UNITS * UNIT ? UNIT : PAGE - at % PAGE;
        if (begins_at(musl, g, 0, at, &head))
            return 1;
    }
    return 0;
}

/* Where the block of a slot begins that says it is in use, or 0. An offset within the slot has 16 bits, and so may lack higher ones. */
static uint64_t block_of(struct musl *musl, const struct group *g, unsigned number, struct head *head)
{
    uint64_t start = g->memory + UNIT + g->stride * number, end = start + g->stride - IN_BAND;

    if (!read_head(musl, start, head))
        return 0;
    if (!number && !head->is_long && !head->number && !head->offset)
        return begins_later_too(musl, g) ? 0 : start;
    if (head->number != BEGINS_LATER)
        return begins_at(musl, g, number, start, head) ? start : 0;
    for (uint64_t at = start + (uint64_t)head->offset * UNIT; at < end; at += (uint64_t)UNIT << 16)
        if (at > start && begins_at(musl, g, number, at, head))
            return at;
    return 0;
}

/* Whether the byte is known, and 0. */
static int is_zero(struct musl *musl, uint64_t at)
{
    uint64_t value;

    return read_word(musl->heap, at & -(uint64_t)8, &value) && !(value >> 8 * (at % 8) & 255);
}

/* Whether a block ends as malloc left it (meta.h, get_nominal_size): so its group's pages are as many as it says. */
static int has_its_end(struct musl *musl, uint64_t start, uint64_t end, unsigned number)
{
    enum { IN_BITS = 5 };
    uint64_t spare = number >> 5, value;

    if (spare >= IN_BITS) {
        if (spare > IN_BITS || !read_word(musl->heap, end - 4, &value) || (spare = value & UINT32_MAX) < IN_BITS || !is_zero(musl, end - 5))
            return 0;
    }
    return spare <= end - start && is_zero(musl, end - spare) && is_zero(musl, end);
}

static void add_nest(struct musl *musl, uint64_t start, uint64_t end, int is_group)
{
    musl->nests = grown(musl->nests, musl->nest_count, sizeof *musl->nests);
    musl->nests[musl->nest_count++] = (struct nest){ start, end, is_group };
}

static void take_slot(struct musl *musl, const struct group *g, unsigned number)
{
    uint64_t slot = g->memory + UNIT + g->stride * number, end = slot + g->stride - IN_BAND;
    int is_free = (g->available | g->freed) >> number & 1;
    struct head head;
    uint64_t start = block_of(musl, g, number, &head);
    int is_nest = start && head.number >> 5 == IS_NEST;

    /* of one slot, by itself or given by libc's own data, no other slot confirms the size */
    if (start && !is_nest && !g->last && (g->pages || !g->can_go) && !is_free && !has_its_end(musl, start, end, head.number))
        start = 0;

    if (is_free && start && !is_nest)
        tell_odd(musl->heap, "slot %u of the group at 0x%llx is free and says that it is in use", number, (unsigned long long)g->memory);
    if (is_free)
        return;
    if (is_nest)
        add_nest(musl, start, end, 0);
    else if (start)
        add_block(musl->heap, start, end - start, end - start);
    if (is_nest || start)
        return;
    tell_odd(musl->heap, "slot %u of the group at 0x%llx is in use and has no block", number, (unsigned long long)g->memory);
    add_neither(musl->heap, slot - IN_BAND, end);
}

/* Whether the mapping has as many pages as its slots need (malloc.c, alloc_group): one slot alone may need less than its class. */
static int fits_pages(const struct group *g)
{
    uint64_t most = (UNIT + (uint64_t)UNIT * units_of[g->class % CLASSES] * (g->last + 1) + PAGE - 1) / PAGE;

    if (g->class == MAPPED_CLASS)
        return g->pages >= 32 && g->pages < (uint64_t)1 << 35;
    return g->last ? g->pages == most : g->pages <= most + 1;
}

/* Whether the last slot of a meta, its class and its pages can be. */
static int can_be(const struct group *g)
{
    if (g->class >= CLASSES && (g->class != MAPPED_CLASS || g->last || !g->pages || !g->can_go))
        return 0;
    if (g->memory >> 47 || (g->available | g->freed) & ~((2u << g->last) - 1) || (g->available & g->freed))
        return 0;
    if (g->pages)
        return g->memory % PAGE == 0 && g->can_go && fits_pages(g);
    return g->memory % UNIT == 0 && (g->can_go || !g->last);
}

/* Reads a meta that is in use. Its group's first word leads back, and the next one says up to which slot it was ever used. */
static int read_group(struct musl *musl, struct group *g)
{
    uint64_t masks, flags, back, active, last;

    if (!read_word(musl->heap, g->meta + 24, &masks) || !read_word(musl->heap, g->meta + 32, &flags))
        return 0;
    g->available = masks, g->freed = masks >> 32;
    g->last = flags & NUMBER, g->can_go = flags >> 5 & 1, g->class = flags >> 6 & 63, g->pages = flags >> 12;
    if (!can_be(g) || !read_word(musl->heap, g->memory, &back) || back != g->meta || !read_word(musl->heap, g->memory + 8, &active))
        return 0;
    g->stride = !g->last && g->pages ? g->pages * PAGE - UNIT : (uint64_t)UNIT * units_of[g->class % CLASSES];
    g->end = g->pages ? g->memory + g->pages * PAGE : g->memory + UNIT + g->stride * (g->last + 1);
    return (active & NUMBER) <= g->last && !(g->available & ~((2u << (active & NUMBER)) - 1)) && read_word(musl->heap, (g->end - 8) & -(uint64_t)8, &last);
}

/* Whether a meta that leads to no group is empty: a free one has links alone, one that was never used nothing. */
static int is_empty(struct musl *musl, uint64_t meta, int was_used)
{
    int found = 1;
    uint64_t value;

    for (uint64_t at = was_used ? 24 : 0; at < META_BYTES; at += 8)
        found = found && read_word(musl->heap, meta + at, &value) && !value;
    return found;
}

static void take_meta(struct musl *musl, uint64_t meta, int was_used)
{
    struct group g = { .meta = meta };

    if (!read_word(musl->heap, meta + 16, &g.memory) || !g.memory || !was_used) {
        if (!is_empty(musl, meta, was_used))
            tell_odd(musl->heap, "the meta at 0x%llx is neither of a group nor empty", (unsigned long long)meta);
        return;
    }
    if (!read_group(musl, &g)) {
        tell_odd(musl->heap, "the meta at 0x%llx does not fit its group", (unsigned long long)meta);
        return;
    }
    if (g.can_go && g.class < CLASSES)
        musl->slots_of[g.class] += g.last + 1;
    if (g.can_go && !g.pages)
        add_nest(musl, g.memory, g.end, 1);
    add_unused(musl->heap, g.memory, g.end);
    for (unsigned i = 0; i <= g.last; i++)
        take_slot(musl, &g, i);
}

/* Takes the metas of an area, of which those from `unused_from` on were never used. */
void take_metas(struct musl *musl, const struct area *area, uint64_t unused_from)
{
    uint64_t meta = area->start + AREA_HEAD;

    for (unsigned i = 0; i < METAS; i++, meta += META_BYTES)
        take_meta(musl, meta, meta < unused_from);
    add_unused(musl->heap, area->start, area->start + PAGE);
}
