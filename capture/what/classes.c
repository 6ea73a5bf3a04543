/* The classes of held blocks. */
#include <stdlib.h>

#include "classes.h"

/* The limits keep time and memory bounded, whatever the process has in its memory. */
enum { MOST_OF_ROLE = 24, MOST_OF_SIZE = 2000, MOST_LOOKED_AT = 512, MOST_CODES = 8 << 20, MOST_CLASSES = 1 << 17,
       INDEX = 2 * MOST_CLASSES };

uint64_t mixed(uint64_t hash, uint64_t value)
{
    hash = (hash ^ value) * 0x100000001b3u;
    return hash ^ hash >> 29;
}

/* The codes of a block's words. Gives how many; words that the core lacks count as 0. */
size_t read_codes(struct what *what, const struct block *block, uint32_t codes[MOST_WORDS])
{
    size_t count = block->size / WORD < MOST_WORDS ? block->size / WORD : MOST_WORDS;
    struct reader reader = { &what->core, block->start, block->start + count * WORD, NULL, 0 };
    uint64_t place, word;

    memset(codes, 0, count * sizeof *codes);
    while (next_word(&reader, &place, &word))
        codes[(place - block->start) / WORD] = code_of(what, word);
    return count;
}

int is_candidate(struct what *what, long block)
{
    const uint8_t *bytes;

    return what->blocks.list[block].size >= LEAST_BYTES && !text_of(what, what->blocks.list + block, &bytes);
}

static int by_size(const void *a, const void *b)
{
    const struct size *x = a, *y = b;

    return (x->size > y->size) - (x->size < y->size);
}

static void find_sizes(struct what *what, struct classes *c)
{
    size_t left = 0;

    for (size_t i = 0; i < what->blocks.count; i++)
        if (what->blocks.state[i] == LOST && is_candidate(what, i)) {
            c->sizes = grown(c->sizes, c->size_count, sizeof *c->sizes);
            c->sizes[c->size_count++].size = what->blocks.list[i].size;
        }
    if (c->size_count)
        qsort(c->sizes, c->size_count, sizeof *c->sizes, by_size);
    for (size_t i = 0; i < c->size_count; i++)
        if (!left || c->sizes[left - 1].size != c->sizes[i].size)
            c->sizes[left++] = (struct size){ .size = c->sizes[i].size };
    c->size_count = left;
}

struct size *size_of(const struct classes *c, uint64_t size)
{
    struct size wanted = { .size = size };

    return c->size_count ? bsearch(&wanted, c->sizes, c->size_count, sizeof wanted, by_size) : NULL;
}

/* Where the class of this hash is in the index, or where it may be put. */
static uint32_t *place_of(struct classes *c, uint64_t hash)
{
    uint32_t at = hash % INDEX;

    while (c->index[at] && c->list[c->index[at] - 1].hash != hash)
        at = (at + 1) % INDEX;
    return c->index + at;
}

static void add_class(struct classes *c, struct size *size, struct class class, const uint32_t *codes, size_t count)
{
    uint32_t *place = place_of(c, class.hash);

    if (c->count >= MOST_CLASSES || size->count >= MOST_OF_SIZE || c->of_role[class.role].classes >= MOST_OF_ROLE
        || count > MOST_CODES - c->used)
        return;
    c->of_role[class.role].classes++;
    class.codes = c->used;
    class.next = size->first;
    memcpy(c->pool + c->used, codes, count * sizeof *codes);
    c->used += count;
    c->list = grown(c->list, c->count, sizeof *c->list);
    c->list[c->count++] = class;
    *place = size->first = c->count;
    size->count++;
}

/* Puts a held block into its class, if lost blocks have its size. */
static void classify(struct what *what, struct classes *c, long block, int32_t role)
{
    struct size *size = size_of(c, what->blocks.list[block].size);
    uint32_t codes[MOST_WORDS];
    uint64_t hash = role;
    uint32_t number;
    size_t count;

    if (!size)
        return;
    c->held[c->held_count++] = (uint64_t)c->root[role] << 32 | (uint64_t)(size - c->sizes);
    if (c->of_role[role].blocks++ >= MOST_LOOKED_AT)
        return;
    count = read_codes(what, what->blocks.list + block, codes);
    for (size_t i = 0; i < count; i++)
        hash = mixed(hash, codes[i]);
    hash = mixed(hash, size->size);
    number = *place_of(c, hash);
    if (!number)
        add_class(c, size, (struct class){ .hash = hash, .role = role, .count = 1, .first = block }, codes, count);
    else
        c->list[number - 1].count++;
}

static void *room_for(size_t count, size_t each)
{
    void *room = calloc(count + 1, each);

    if (!room)
        fail("out of memory");
    return room;
}

static void make_room(struct what *what, struct classes *c, const struct roles *roles)
{
    c->known_size = 2;
    while (c->known_size < 2 * what->blocks.lost_count + 2)
        c->known_size *= 2;
    c->known = room_for(c->known_size, sizeof *c->known);
    c->of_role = room_for(roles->count, sizeof *c->of_role);
    c->root = room_for(roles->count, sizeof *c->root);
    c->held = room_for(what->blocks.count, sizeof *c->held);
    c->index = room_for(INDEX, sizeof *c->index);
    c->pool = malloc(MOST_CODES * sizeof *c->pool);
    if (!c->pool)
        fail("out of memory");
    for (size_t i = 0; i < roles->count; i++) /* a role comes after that of the block that leads to it */
        c->root[i] = roles->list[i].parent == NONE ? (int32_t)i : c->root[roles->list[i].parent];
}

/* Classifies the blocks that a variable of the program's own files leads to, and none that a stack leads to: those were
 * mostly lost too. */
struct classes *find_classes(struct what *what, const struct roles *roles)
{
    struct classes *c = room_for(1, sizeof *c);

    find_sizes(what, c);
    make_room(what, c, roles);
    for (size_t i = 0; c->size_count && i < what->blocks.count; i++) {
        int32_t role = what->blocks.state[i] == HELD ? roles->of_block[i] : NONE;
        if (role != NONE && roles->list[role].origin == BY_VARIABLE)
            classify(what, c, i, role);
    }
    if (c->held_count)
        qsort(c->held, c->held_count, sizeof *c->held, by_start);
    return c;
}
