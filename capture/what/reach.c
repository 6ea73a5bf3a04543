/* How held blocks are reached: from variables of files first, then from other memory, stacks and registers. Blocks that
 * are reached in the same way have one role: in a list, all but the first. */
#include <stdlib.h>

#include "what.h"

enum { MOST_ROLES = 1 << 18, DEEPEST = 8, LOOK_BACK = 6, MOST_PLACES = 12, RED_ZONE = 128 };

struct reach {
    struct what *what;
    struct roles roles;
    uint32_t *queue;            /* numbers of blocks whose words are still to be read */
    size_t first, last;
    long variable_module, variable; /* the symbol that words are being read of, */
    uint32_t places;            /* and how many of its words led to blocks */
    uint64_t variable_start;
};

static void *room_for(size_t count, size_t each)
{
    void *room = calloc(count ? count : 1, each);

    if (!room)
        fail("out of memory");
    return room;
}

static uint32_t hash_of(const struct role *role)
{
    uint64_t hash = (uint64_t)(uint32_t)role->parent << 32 | (uint32_t)role->offset;

    hash = (hash ^ role->size) * 0x9e3779b97f4a7c15u;
    hash = (hash ^ hash >> 29 ^ role->place) * 0xbf58476d1ce4e5b9u;
    return hash >> 32;
}

static int is_same(const struct role *a, const struct role *b)
{
    return a->parent == b->parent && a->offset == b->offset && a->size == b->size && a->place == b->place
        && a->origin == b->origin;
}

/* The number of the role, which is added if it is new; when there are too many, one that all others share by origin. */
static int32_t number_of(struct roles *roles, struct role role)
{
    uint32_t at = hash_of(&role) & (roles->table_size - 1);

    for (; roles->table[at]; at = (at + 1) & (roles->table_size - 1))
        if (is_same(roles->list + roles->table[at] - 1, &role))
            return roles->table[at] - 1;
    if (roles->count >= MOST_ROLES && (role.parent != NONE || role.offset != DEEP))
        return number_of(roles, (struct role){ .parent = NONE, .offset = DEEP, .origin = role.origin });
    roles->list = grown(roles->list, roles->count, sizeof *roles->list);
    roles->list[roles->count++] = role;
    return (roles->table[at] = roles->count) - 1;
}

/* The role of a block that a block with this role leads to. If an earlier one was left by the same place, it is a list.
 * */
static int32_t role_through(struct roles *roles, int32_t parent, int32_t offset, uint64_t size)
{
    struct role role = { parent, offset, size, 0, 0, roles->list[parent].depth + 1, roles->list[parent].origin };
    int32_t at = parent;

    for (int i = 0; i < LOOK_BACK && at != NONE; i++, at = roles->list[at].parent)
        if (roles->list[at].parent != NONE && roles->list[at].offset == offset)
            return at;
    if (role.depth > DEEPEST)
        role.depth = DEEPEST, role.offset = DEEP, role.size = 0;
    return number_of(roles, role);
}

/* Gives the block the role, if none led to it before, and keeps it for its words. */
static void take(struct reach *reach, long block, int32_t role)
{
    reach->roles.of_block[block] = role;
    reach->roles.list[role].count++;
    reach->queue[reach->last++] = block;
}

static int is_wanted(const struct reach *reach, long block)
{
    return block != NONE && reach->what->blocks.state[block] == HELD && reach->roles.of_block[block] == NONE;
}

/* Whether it is an array of pointers: then the place in it tells nothing. */
static int is_array(struct reach *reach, const struct block *block)
{
    enum { LEAST = 8 };
    struct reader reader = { &reach->what->core, block->start, block->start + block->size, NULL, 0 };
    uint64_t place, word, pointers = 0, some = 0;

    while (next_word(&reader, &place, &word)) {
        some += word != 0;
        pointers += word >= reach->what->blocks.low && word < reach->what->blocks.high;
    }
    return pointers > LEAST && 2 * pointers > some;
}

/* Reads the words of one block. */
static void follow(struct reach *reach, uint32_t number)
{
    const struct blocks *blocks = &reach->what->blocks;
    const struct block *block = blocks->list + number;
    struct reader reader = { &reach->what->core, block->start, block->start + block->size, NULL, 0 };
    int of_array = is_array(reach, block);
    uint64_t place, word;

    while (next_word(&reader, &place, &word)) {
        long to = block_of(blocks, word);
        uint64_t from = place - block->start;
        int32_t offset = of_array || from > INT32_MAX ? ELEMENT : (int32_t)from;
        if (is_wanted(reach, to))
            take(reach, to, role_through(&reach->roles, reach->roles.of_block[number], offset, blocks->list[to].size));
    }
}

static void follow_all(struct reach *reach)
{
    while (reach->first < reach->last)
        follow(reach, reach->queue[reach->first++]);
}

/* Where the pointer is, as far as it tells roles apart: elements of a long variable are alike. */
static uint64_t variable_of(struct reach *reach, uint64_t place)
{
    struct modules *modules = &reach->what->modules;
    long module = module_of(modules, place);
    const struct symbol *s = module == NONE ? NULL : symbol_at(modules, module, place);
    uint64_t start = s ? s->at + modules->list[module].bias : 0;

    if (!s)
        return place;
    if (start != reach->variable_start)
        reach->variable_start = start, reach->places = 0;
    return reach->places++ < MOST_PLACES ? place : start;
}

/* Takes the block of a word of memory that is in no block. */
static void take_root(struct reach *reach, uint64_t place, uint64_t word, enum origin origin)
{
    const struct blocks *blocks = &reach->what->blocks;
    long to = block_of(blocks, word);
    struct role role = { .parent = NONE, .offset = 0, .origin = origin };

    if (!is_wanted(reach, to))
        return;
    if (origin != BY_REGISTER && (block_of(blocks, place) != NONE || is_freed(blocks, place)))
        return;
    role.size = blocks->list[to].size;
    role.place = origin <= BY_LIBC ? variable_of(reach, place) : 0;
    take(reach, to, number_of(&reach->roles, role));
}

static enum origin origin_of(const struct reach *reach, const struct segment *s)
{
    const struct modules *modules = &reach->what->modules;
    long module = module_of(modules, s->start);

    if (s->is_stack)
        return BY_STACK;
    if (module == NONE)
        return BY_MEMORY;
    if (modules->list[module].is_interpreter)
        return BY_INTERPRETER;
    return modules->list[module].is_libc ? BY_LIBC : BY_VARIABLE;
}

/* Where the part of a segment begins that counts: of a stack what is below all stack pointers in it doesn't. */
static uint64_t start_of(const struct reach *reach, const struct segment *s)
{
    uint64_t lowest = s->end;

    if (!s->is_stack)
        return s->start;
    for (size_t i = 0; i < reach->what->core.thread_count; i++) {
        uint64_t at = reach->what->core.threads[i].words[STACK_POINTER];
        if (at >= s->start && at < lowest)
            lowest = at;
    }
    return lowest - s->start < RED_ZONE ? s->start : (lowest - RED_ZONE) & -(uint64_t)WORD;
}

static void take_segment(struct reach *reach, const struct segment *s, enum origin origin)
{
    struct reader reader = { &reach->what->core, start_of(reach, s), s->end, NULL, 0 };
    uint64_t place, word;

    while (next_word(&reader, &place, &word))
        take_root(reach, place, word, origin);
    follow_all(reach);
}

static void take_segments(struct reach *reach, enum origin origin)
{
    struct core *core = &reach->what->core;

    for (size_t i = 0; i < core->segment_count; i++)
        if (core->segments[i].is_writable && origin_of(reach, core->segments + i) == origin)
            take_segment(reach, core->segments + i, origin);
}

static void take_registers(struct reach *reach)
{
    const struct core *core = &reach->what->core;

    for (size_t i = 0; i < core->thread_count; i++)
        for (int k = 0; k < REGISTERS; k++)
            take_root(reach, 0, core->threads[i].words[k], BY_REGISTER);
    follow_all(reach);
}

struct roles find_roles(struct what *what)
{
    size_t count = what->blocks.count;
    struct reach reach = { .what = what, .roles = { .table_size = 2 * MOST_ROLES } };

    reach.roles.table = room_for(reach.roles.table_size, sizeof *reach.roles.table);
    reach.roles.of_block = room_for(count, sizeof *reach.roles.of_block);
    reach.queue = room_for(count, sizeof *reach.queue);
    for (size_t i = 0; i < count; i++)
        reach.roles.of_block[i] = NONE;
    for (int origin = BY_INTERPRETER; origin <= BY_STACK; origin++)
        take_segments(&reach, origin);
    take_registers(&reach);
    free(reach.queue);
    return reach.roles;
}
