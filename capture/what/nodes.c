/* Nodes of std::map and its kin, and of std::unordered_map and its. */
#include "containers.h"

static uint64_t size_at(const struct search *s, long block)
{
    return s->what->blocks.list[block].size;
}

/* Adds a node that wasn't met, of the size of the first one. */
static int meet(struct search *s, uint64_t address, uint64_t *count)
{
    long block = block_at(s, address);

    if (block == NONE || s->met[block] == s->number || *count >= s->now.count
        || (*count && size_at(s, block) != size_at(s, s->queue[0])))
        return 0;
    s->met[block] = s->number;
    s->queue[(*count)++] = block;
    return 1;
}

static void take_nodes(struct search *s, uint64_t count)
{
    for (uint64_t i = 0; i < count; i++)
        take_block(s, s->queue[i]);
}

/* Meets a child, which must lead back to its parent. */
static int meet_child(struct search *s, uint64_t parent, uint64_t child, uint64_t *count)
{
    uint64_t words[RIGHT + 1];

    return !child || (read_words(s, child, words, RIGHT + 1) && words[PARENT] == parent && meet(s, child, count));
}

/* Meets all nodes of a tree, whose root is the first. */
static int meet_tree(struct search *s, const uint64_t *tree)
{
    uint64_t node[RIGHT + 1], count = 0;

    if (!meet_child(s, s->at, tree[ROOT], &count))
        return 0;
    for (uint64_t i = 0; i < count && s->steps < MOST_STEPS; i++) {
        uint64_t at = s->what->blocks.list[s->queue[i]].start;
        if (!read_words(s, at, node, RIGHT + 1) || (uint32_t)node[COLOR] > BLACK
            || (!i && (uint32_t)node[COLOR] != BLACK)
            || !meet_child(s, at, node[LEFT], &count) || !meet_child(s, at, node[RIGHT], &count))
            return 0;
    }
    return count == tree[COUNT] && s->steps < MOST_STEPS;
}

/* Whether the node was met, and has no child on this side. */
static int is_last(struct search *s, uint64_t address, int side)
{
    long block = block_at(s, address);
    uint64_t node[RIGHT + 1];

    return block != NONE && s->met[block] == s->number && read_words(s, address, node, RIGHT + 1) && !node[side];
}

void find_tree(struct search *s)
{
    const uint64_t *tree = s->words;

    if ((uint32_t)tree[COLOR] != RED || !tree[COUNT] || tree[COUNT] > s->what->blocks.count
        || block_at(s, tree[ROOT]) == NONE || block_at(s, tree[LEFT]) == NONE || block_at(s, tree[RIGHT]) == NONE)
        return;
    s->now.kind = TREE_NODE, s->now.count = tree[COUNT];
    if (meet_tree(s, tree) && is_last(s, tree[LEFT], LEFT) && is_last(s, tree[RIGHT], RIGHT))
        take_nodes(s, tree[COUNT]);
}

/* Meets all nodes of a hash table, which are one chain. */
static int meet_chain(struct search *s, uint64_t at)
{
    uint64_t count = 0;

    for (; at && s->steps < MOST_STEPS; s->steps++)
        if (!meet(s, at, &count) || !read_words(s, at, &at, 1))
            return 0;
    return count == s->now.count && s->steps < MOST_STEPS;
}

/* Whether each bucket leads to a node, or to the table's pointer to the first one. */
static int are_buckets(struct search *s, uint64_t at, uint64_t count)
{
    struct reader reader = { &s->what->core, at, at + count * WORD, NULL, 0 };
    uint64_t place, word, read = 0;

    for (; next_word(&reader, &place, &word); read++, s->steps++) {
        long block = word ? block_at(s, word) : NONE;
        if (word && word != s->at + FIRST * WORD && (block == NONE || s->met[block] != s->number))
            return 0;
    }
    return read == count;
}

void find_table(struct search *s)
{
    const uint64_t *table = s->words;
    uint64_t buckets = table[BUCKET_COUNT], bytes = buckets * WORD;
    long block = block_at(s, table[BUCKETS]);
    int is_single = buckets == 1 && table[BUCKETS] == s->at + ONLY_BUCKET * WORD;

    if (!buckets || buckets > UINT32_MAX || table[ELEMENTS] > s->what->blocks.count || !(uint32_t)table[LOAD]
        || (uint32_t)table[LOAD] >> 31 || (!is_single && (block == NONE || !fits_block(bytes, size_at(s, block)))))
        return;
    s->now.kind = HASH_NODE, s->now.count = table[ELEMENTS];
    if (!meet_chain(s, table[FIRST]) || !are_buckets(s, table[BUCKETS], buckets))
        return;
    take_nodes(s, table[ELEMENTS]);
    s->now.kind = HASH_BUCKETS, s->now.count = buckets, s->now.is_listed = 0;
    if (!is_single)
        take_block(s, block);
}
