/* Structures of lost blocks: those that only one of them leads to were lost with it. A block that no other leads to
 * begins one, and so does one block of a ring that none outside of it leads to. */
#include <stdlib.h>

#include "graph.h"
#include "what.h"

enum { MOST_EDGES = 16 << 20, MOST_LEADING = 4 << 20 };

struct builder {
    struct what *what;
    struct structures *s;
    int32_t *place;             /* of each block where it is in `lost`, from 1 on; 0: it is held */
    struct graph graph;
    size_t edges;
};

static void *room_for(size_t count, size_t each)
{
    void *room = calloc(count + 2, each);

    if (!room)
        fail("out of memory");
    return room;
}

static void number_lost(struct builder *b)
{
    b->place = room_for(b->what->blocks.count, sizeof *b->place);
    b->s->lost = room_for(b->what->blocks.lost_count, sizeof *b->s->lost);
    for (size_t i = 0; i < b->what->blocks.count; i++)
        if (b->what->blocks.state[i] == LOST) {
            b->s->lost[b->s->count++] = i;
            b->place[i] = b->s->count;
        }
}

/* Adds the edges of a lost block. What are too many are left out: then less was lost with it than is said. */
static void add_edges(struct builder *b, uint32_t number)
{
    const struct block *block = b->what->blocks.list + b->s->lost[number - 1];
    struct reader reader = { &b->what->core, block->start, block->start + block->size, NULL, 0 };
    uint64_t place, word;

    b->graph.first[number] = b->edges;
    while (b->edges < MOST_EDGES && next_word(&reader, &place, &word)) {
        long to = block_of(&b->what->blocks, word);
        if (to == NONE || !b->place[to] || b->place[to] == (int32_t)number)
            continue;
        b->graph.to = grown(b->graph.to, b->edges, sizeof *b->graph.to);
        b->graph.to[b->edges++] = b->place[to];
    }
}

/* The numbers in the order in which a search from each in turn ends with them. */
static void order_by_end(const struct builder *b, uint32_t *ended)
{
    uint32_t *stack = room_for(b->s->count, sizeof *stack), *edge = room_for(b->s->count, sizeof *edge), depth = 0;
    uint8_t *is_met = room_for(b->s->count, 1);
    size_t count = 0;

    for (uint32_t start = 1; start <= b->s->count; start++) {
        if (is_met[start])
            continue;
        is_met[start] = 1, stack[++depth] = start, edge[start] = b->graph.first[start];
        while (depth) {
            uint32_t at = stack[depth];
            if (edge[at] == b->graph.first[at + 1]) {
                ended[count++] = at, depth--;
                continue;
            }
            uint32_t to = b->graph.to[edge[at]++];
            if (!is_met[to])
                is_met[to] = 1, stack[++depth] = to, edge[to] = b->graph.first[to];
        }
    }
    free(stack), free(edge), free(is_met);
}

/* Marks all that the number leads to. */
static void mark_from(const struct builder *b, uint32_t start, uint8_t *is_met, uint32_t *stack)
{
    uint32_t depth = 1;

    is_met[start] = 1, stack[0] = start;
    while (depth) {
        uint32_t at = stack[--depth];
        for (uint32_t i = b->graph.first[at]; i < b->graph.first[at + 1]; i++)
            if (!is_met[b->graph.to[i]])
                is_met[b->graph.to[i]] = 1, stack[depth++] = b->graph.to[i];
    }
}

/* Where structures begin: the number that a search ends with last leads to those before it or to none, so no number
 * that is left leads to it without being led to by it (Kosaraju's order). */
static void add_beginnings(struct builder *b)
{
    uint32_t *ended = room_for(b->s->count, sizeof *ended), *stack = room_for(b->s->count, sizeof *stack);
    uint32_t *begin = NULL;
    uint8_t *is_met = room_for(b->s->count, 1);
    size_t count = 0, all = b->edges;

    order_by_end(b, ended);
    for (size_t i = b->s->count; i--;)
        if (!is_met[ended[i]]) {
            mark_from(b, ended[i], is_met, stack);
            begin = grown(begin, count, sizeof *begin);
            begin[count++] = ended[i];
        }
    b->graph.to = realloc(b->graph.to, (all + count + 1) * sizeof *b->graph.to);
    if (!b->graph.to)
        fail("out of memory");
    memmove(b->graph.to + count, b->graph.to, all * sizeof *b->graph.to);
    if (count)
        memcpy(b->graph.to, begin, count * sizeof *begin);
    for (uint32_t i = 1; i <= b->s->count + 1; i++)
        b->graph.first[i] += count;
    free(ended), free(stack), free(begin), free(is_met);
}

/* Sums up what each holds, and tells which structure it is of. */
static void sum_up(struct builder *b, const uint32_t *dominator, const uint32_t *order)
{
    struct structures *s = b->s;

    for (size_t i = 1; i <= s->count; i++)
        s->top[order[i] - 1] = dominator[order[i]] ? s->top[dominator[order[i]] - 1] : (int32_t)order[i] - 1;
    for (size_t i = s->count; i; i--) {
        uint32_t above = dominator[order[i]];
        if (!above)
            continue;
        s->held[above - 1] += 1 + s->held[order[i] - 1];
        s->held_bytes[above - 1] += b->what->blocks.list[s->lost[order[i] - 1]].size + s->held_bytes[order[i] - 1];
    }
}

static int by_both(const void *a, const void *b)
{
    const struct leading *x = a, *y = b;

    return x->to != y->to ? (x->to > y->to ? 1 : -1) : (x->from > y->from) - (x->from < y->from);
}

/* Adds the structures to which the number leads, but its own. */
static void add_leading(struct builder *b, uint32_t number)
{
    struct structures *s = b->s;
    uint32_t from = s->top[number - 1];

    for (uint32_t i = b->graph.first[number]; i < b->graph.first[number + 1] && s->leading_count < MOST_LEADING; i++) {
        uint32_t to = b->graph.to[i] - 1;   /* it is the first of its structure, or all that leads to it is of the same one */
        if ((uint32_t)s->top[to] == from)
            continue;
        s->leading = grown(s->leading, s->leading_count, sizeof *s->leading);
        s->leading[s->leading_count++] = (struct leading){ to, from };
    }
}

/* Which structures lead to which. If some can't be told none is: who reads it must not take a part for all. */
static void find_leading(struct builder *b)
{
    struct structures *s = b->s;
    size_t left = 0;

    for (uint32_t i = 1; i <= s->count; i++)
        add_leading(b, i);
    if (b->edges == MOST_EDGES || s->leading_count == MOST_LEADING)
        s->leading_count = 0;
    if (s->leading_count)
        qsort(s->leading, s->leading_count, sizeof *s->leading, by_both);
    for (size_t i = 0; i < s->leading_count; i++)
        if (!left || by_both(s->leading + left - 1, s->leading + i))
            s->leading[left++] = s->leading[i];
    s->leading_count = left;
}

struct structures find_structures(struct what *what)
{
    struct structures s = { 0 };
    struct builder b = { .what = what, .s = &s };
    uint32_t *dominator, *order;

    number_lost(&b);
    s.top = room_for(s.count, sizeof *s.top);
    s.held = room_for(s.count, sizeof *s.held);
    s.held_bytes = room_for(s.count, sizeof *s.held_bytes);
    dominator = room_for(s.count, sizeof *dominator);
    order = room_for(s.count, sizeof *order);
    b.graph.count = s.count;
    b.graph.first = room_for(s.count, sizeof *b.graph.first);
    for (uint32_t i = 1; i <= s.count; i++)
        add_edges(&b, i);
    b.graph.first[s.count + 1] = b.edges;
    add_beginnings(&b);
    find_dominators(&b.graph, dominator, order);
    sum_up(&b, dominator, order);
    find_leading(&b);
    free(dominator), free(order), free(b.place), free(b.graph.first), free(b.graph.to);
    return s;
}
