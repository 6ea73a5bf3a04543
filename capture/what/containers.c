/* Which blocks are a container's of C++'s standard library: its nodes or its text. A container is known by the words that
 * it has in a lost block, and by what they lead to: all of its nodes must be as it says. */
#include <stdlib.h>

#include "containers.h"

static void *room_for(size_t count, size_t each)
{
    void *room = calloc(count + 1, each);

    if (!room)
        fail("out of memory");
    return room;
}

/* The number of the block that begins there, or NONE. */
long block_at(const struct search *s, uint64_t address)
{
    long block = block_of(&s->what->blocks, address);

    return block != NONE && s->what->blocks.list[block].start == address ? block : NONE;
}

/* Reads words of memory; 0 if the core lacks some. */
int read_words(struct search *s, uint64_t at, uint64_t *words, size_t count)
{
    uint64_t size = count * WORD;
    const uint8_t *bytes = run_at(&s->what->core, at, &size);

    s->steps++;
    if (!bytes || size < count * WORD)
        return 0;
    memcpy(words, bytes, size);
    return 1;
}

/* Notes that the block is the container's. Of one that two of them have nothing is told. */
void take_block(struct search *s, long block)
{
    uint32_t *number = s->found->of_block + block;

    if (s->what->blocks.state[block] != LOST || block == s->now.owner || *number == DOUBTFUL)
        return;
    if (*number) {
        *number = DOUBTFUL;
        return;
    }
    if (!s->now.is_listed) {
        s->now.is_listed = 1;
        s->found->list = grown(s->found->list, s->found->count, sizeof *s->found->list);
        s->found->list[s->found->count++] = s->now;
    }
    *number = s->found->count - 1;
}

static uint64_t size_at(const struct search *s, long block)
{
    return s->what->blocks.list[block].size;
}

static void find_string(struct search *s)
{
    const uint64_t *string = s->words;
    long block = block_at(s, string[TEXT_START]);
    uint64_t size = string[LENGTH] + 1;
    const uint8_t *text;

    if (block == NONE || s->is_stale || string[CAPACITY] < LEAST_CAPACITY || string[LENGTH] > string[CAPACITY]
        || string[CAPACITY] > size_at(s, block) || !fits_block(string[CAPACITY] + 1, size_at(s, block)))
        return;
    text = run_at(&s->what->core, string[TEXT_START], &size);
    s->steps += size / WORD;
    if (!text || size <= string[LENGTH] || memchr(text, 0, size) != text + string[LENGTH])
        return;
    s->now.kind = STRING_TEXT, s->now.count = string[LENGTH];
    take_block(s, block);
}

static const struct shape {
    void (*find)(struct search *search);
    size_t words, pointer;      /* how many, and which of them leads to a block that begins there */
} shapes[] = {
    { find_tree, TREE_WORDS, ROOT }, { find_table, TABLE_WORDS, FIRST }, { find_string, STRING_WORDS, TEXT_START },
};

/* Looks for each container that may begin there. */
static void look_at(struct search *s, const uint8_t *bytes, uint64_t left)
{
    uint64_t words[TABLE_WORDS] = { 0 };

    memcpy(words, bytes, left < sizeof words ? left : sizeof words);
    for (size_t i = 0; i < sizeof shapes / sizeof *shapes; i++) {
        if (left < shapes[i].words * WORD || block_at(s, words[shapes[i].pointer]) == NONE)
            continue;
        s->number++, s->words = words, s->now.is_listed = 0;
        shapes[i].find(s);
    }
}

/* Whether a word leads to where blocks are, and to none: then the block's destructor ran, or it is filled only in part.
 */
static int has_stale(struct search *s, const struct block *block)
{
    const struct blocks *blocks = &s->what->blocks;
    struct reader reader = { &s->what->core, block->start, block->start + block->size, NULL, 0 };
    uint64_t place, word;

    for (; next_word(&reader, &place, &word); s->steps++)
        if (word >= blocks->low && word < blocks->high && block_of(blocks, word) == NONE)
            return 1;
    return 0;
}

static void look_into(struct search *s, long number)
{
    const struct block *block = s->what->blocks.list + number;
    uint64_t size = block->size;
    const uint8_t *bytes = run_at(&s->what->core, block->start, &size);

    s->is_stale = has_stale(s, block);
    for (uint64_t at = 0; bytes && at + STRING_WORDS * WORD <= size && s->steps < MOST_STEPS; at += WORD, s->steps++) {
        s->at = block->start + at;
        s->now = (struct container){ .owner = number, .offset = at };
        look_at(s, bytes + at, size - at);
    }
}

/* A program has containers of this library if it has the library. */
static int has_library(const struct modules *modules)
{
    for (size_t i = 0; i < modules->count; i++)
        if (!strncmp(modules->list[i].name, "libstdc++.so", strlen("libstdc++.so")))
            return 1;
    return 0;
}

/* Finds the containers in lost blocks. If that takes too long none is told: a block might be another one's too. */
struct containers find_containers(struct what *what)
{
    struct containers found = { .of_block = room_for(what->blocks.count, sizeof *found.of_block) };
    struct search s = { .what = what, .found = &found };

    found.list = room_for(1, sizeof *found.list);
    found.count = 1;
    if (!has_library(&what->modules))
        return found;
    s.met = room_for(what->blocks.count, sizeof *s.met);
    s.queue = room_for(what->blocks.count, sizeof *s.queue);
    for (size_t i = 0; i < what->blocks.count; i++)
        if (what->blocks.state[i] == LOST)
            look_into(&s, i);
    if (s.steps >= MOST_STEPS) {
        warn("too many words: no containers are told");
        memset(found.of_block, 0, what->blocks.count * sizeof *found.of_block);
    }
    free(s.met), free(s.queue);
    return found;
}
