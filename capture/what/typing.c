/* Which type the block has that a variable leads to: through pointers, structures and arrays by their types, never
 * through unions or pointers to void. A type counts if the block has its size; of two for one block neither does. */
#include <stdlib.h>

#include "types.h"

enum { MOST_STEPS = 1 << 27, MOST_JOBS = 1 << 22, DEEPEST = 12 };
enum { HEAP_SLACK = 16 };

/* So many things of a type that stand in a row. */
struct job {
    uint64_t at, count;
    uint32_t type;
};

struct typing {
    struct what *what;
    const struct types *types;
    struct label *labels;       /* by block */
    struct job *jobs;           /* still to be done */
    size_t job_count;
    struct job *seen;           /* a table by hash; a place of 0 is free */
    size_t seen_count, seen_size;
    uint64_t steps;
    int is_refuted;             /* whether what is read as a pointer is no address */
};

static void *room_for(size_t count, size_t each)
{
    void *room = calloc(count, each);

    if (!room)
        fail("out of memory");
    return room;
}

static const struct type *type_at(const struct typing *t, uint32_t number)
{
    return t->types->list + number;
}

/* The bytes of a type, or 0: not known. */
static uint64_t size_of_type(const struct typing *t, uint32_t number)
{
    uint64_t count = 1;

    for (int i = 0; i < DEEPEST; i++) {
        const struct type *type = type_at(t, number);
        uint64_t size = type->kind == ARRAY_TYPE ? type->count : type->size;
        if (__builtin_mul_overflow(count, size, &count))
            return 0;
        if (type->kind != ARRAY_TYPE)
            return count;
        number = type->to;
    }
    return 0;
}

/* Where the job is in the table, or where it may be put. */
static struct job *place_of(struct typing *t, const struct job *job)
{
    size_t place = (job->at * 0x9e3779b97f4a7c15u ^ job->type * 0xff51afd7ed558ccdu) >> 20;
    struct job *found;

    while ((found = t->seen + (place & (t->seen_size - 1)))->at && (found->at != job->at || found->type != job->type))
        place++, t->steps++;
    return found;
}

/* Grows the table before it is two thirds full. */
static void make_room(struct typing *t)
{
    struct job *old = t->seen;
    size_t size = t->seen_size;

    if (3 * t->seen_count < 2 * size)
        return;
    t->seen_size = size ? 2 * size : 1 << 12;
    t->seen = room_for(t->seen_size, sizeof *t->seen);
    for (size_t i = 0; i < size; i++)
        if (old[i].at)
            *place_of(t, old + i) = old[i];
    free(old);
}

/* Keeps it to be done, unless it was done. */
static void add_job(struct typing *t, struct job job)
{
    struct job *found;

    make_room(t);
    found = place_of(t, &job);
    if (found->at)
        return;
    *found = job;
    if (++t->seen_count > MOST_JOBS)
        t->steps = MOST_STEPS;
    t->jobs = grown(t->jobs, t->job_count, sizeof *t->jobs);
    t->jobs[t->job_count++] = job;
}

/* How many pointers to this structure the other one is of, or 0 if it has something else. One of nothing else is a
 * link, as of a list: what is linked begins with it. */
static size_t links_in(struct typing *t, const struct type *s, uint32_t number, int depth)
{
    size_t count = 0, all = 0;

    for (size_t i = 0; i < s->member_count && depth < DEEPEST && t->steps < MOST_STEPS; i++, t->steps++) {
        const struct type *member = type_at(t, s->members[i].type);
        size_t inner = member->kind == STRUCT_TYPE ? links_in(t, member, number, depth + 1)
                                                   : member->kind == POINTER_TYPE && member->to == number;
        if (!inner)
            return 0;
        count += inner, all++;
    }
    return all && count * WORD == s->size ? count : 0;
}

/* Whether the size is that of a structure which ends with an array without a length. */
static int fits_flexible(const struct type *s, uint64_t usable)
{
    uint64_t more = usable > s->size ? usable - s->size : 0;

    return s->each && (s->each < HEAP_SLACK || fits_block(s->size + more / s->each * s->each, usable));
}

/* Whether a structure that begins with this one may be it: then the largest for which there is room. */
static int may_be_outer(const struct type *s, uint64_t usable)
{
    size_t low = 0, high = s->outer_count;

    while (low < high) {
        size_t middle = low + (high - low) / 2;
        if (s->outer[middle] <= usable)
            low = middle + 1;
        else
            high = middle;
    }
    return low && fits_block(s->outer[low - 1], usable);
}

static int is_same_name(const struct typing *t, uint32_t a, uint32_t b)
{
    const struct type *x = type_at(t, a), *y = type_at(t, b);

    if (x->kind == POINTER_TYPE && y->kind == POINTER_TYPE)
        x = type_at(t, x->to), y = type_at(t, y->to);
    if (a == b)
        return 1;
    return x->kind == y->kind && x->name && y->name && !strcmp(x->name, y->name) && !strcmp(x->word, y->word);
}

/* Notes that the block is of this type. */
static void vote(struct typing *t, long block, uint32_t number, int is_array)
{
    const struct type *type = type_at(t, number);
    struct label *label = t->labels + block;

    if (type->kind == STRUCT_TYPE && links_in(t, type, number, 0))
        return;
    if (label->type != UNKNOWN_TYPE && (label->is_array != is_array || !is_same_name(t, label->type, number)))
        label->is_doubtful = 1;
    if (type->kind == STRUCT_TYPE && may_be_outer(type, t->what->blocks.list[block].size))
        label->is_doubtful = 1;
    label->type = number;
    label->is_array = is_array;
}

/* Whether all words of the block are null or addresses. */
static int has_pointers_alone(struct typing *t, const struct block *block)
{
    struct reader reader = { &t->what->core, block->start, block->start + block->size, NULL, 0 };
    uint64_t place, word;

    while (next_word(&reader, &place, &word)) {
        t->steps++;
        if (word && !segment_at(&t->what->core, word))
            return 0;
    }
    return 1;
}

/* Follows a pointer to this type. What is behind the first structure may be anything, so it is not read. */
static void point(struct typing *t, uint64_t word, uint32_t number)
{
    long block = block_of(&t->what->blocks, word);
    const struct type *type = type_at(t, number);
    const struct block *b = t->what->blocks.list + block;
    uint64_t size = size_of_type(t, number), count = 1;

    if (block == NONE || type->kind == OTHER_TYPE || !size || size > b->start + b->size - word)
        return;
    if (word == b->start && type->kind == STRUCT_TYPE) {
        uint64_t elements = b->size / size;
        int is_one = fits_block(size, b->size) || fits_flexible(type, b->size);
        if (is_one || (!type->each && fits_block(elements * size, b->size)))
            vote(t, block, number, !is_one);
    } else if (word == b->start && type->kind == POINTER_TYPE) {
        if (!has_pointers_alone(t, b))
            return;
        count = b->size / WORD;
        vote(t, block, number, 1);
    }
    add_job(t, (struct job){ word, count, number });
}

/* Whether the word may be a pointer to a type: null, a small number that stands for something, or an address. */
static int may_be_pointer(struct typing *t, uint64_t word)
{
    return word + PAGE < 2 * PAGE || segment_at(&t->what->core, word) || part_of(&t->what->core.parts, word);
}

/* Reads what is there as a thing of this type. */
static void read_thing(struct typing *t, uint64_t at, uint32_t number, int depth)
{
    const struct type *type = type_at(t, number);
    uint64_t word, size = type->kind == ARRAY_TYPE ? size_of_type(t, type->to) : 0;

    if (++t->steps >= MOST_STEPS || depth > DEEPEST)
        return;
    if (type->kind == POINTER_TYPE && type->to != UNKNOWN_TYPE && word_at(&t->what->core, at, &word) && word) {
        t->is_refuted |= !may_be_pointer(t, word);
        point(t, word, type->to);
    }
    for (size_t i = 0; type->kind == STRUCT_TYPE && i < type->member_count; i++)
        if (type->members[i].offset < type->size)
            read_thing(t, at + type->members[i].offset, type->members[i].type, depth + 1);
    for (uint64_t i = 0; size && i < type->count && t->steps < MOST_STEPS; i++)
        read_thing(t, at + i * size, type->to, depth + 1);
}

/* Reads what pointers led to. A block has no type if what should be pointers there are none: the pointer to it was left
 * over from an earlier use, or it isn't filled yet. */
static void do_jobs(struct typing *t)
{
    while (t->job_count && t->steps < MOST_STEPS) {
        struct job job = t->jobs[--t->job_count];
        long block = block_of(&t->what->blocks, job.at);
        uint64_t size = size_of_type(t, job.type);
        t->is_refuted = 0;
        for (uint64_t i = 0; i < job.count && t->steps < MOST_STEPS; i++)
            read_thing(t, job.at + i * size, job.type, 0);
        if (t->is_refuted && t->labels[block].type == job.type)
            t->labels[block].is_doubtful = 1;
    }
}

/* By block, what it is. If that would take too long no block has a type: a second one might not be seen. */
struct label *find_labels(struct what *what, const struct types *types)
{
    struct typing t = { .what = what, .types = types, .labels = room_for(what->blocks.count, sizeof *t.labels) };

    for (size_t i = 0; i < types->variable_count; i++) {
        read_thing(&t, types->variables[i].at, types->variables[i].type, 0);
        do_jobs(&t);
    }
    if (t.steps >= MOST_STEPS) {
        warn("there is too much to follow: no block has a type");
        memset(t.labels, 0, what->blocks.count * sizeof *t.labels);
    }
    free(t.jobs);
    free(t.seen);
    return t.labels;
}
