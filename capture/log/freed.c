/* Freed memory: what was ever in a block of less than 128 KiB, and is in none now. */
#include <stdlib.h>

#include "log.h"

/* Written as blocks that come and go, each less than 128 KiB. */
enum { MOST = SMALL_BELOW - 16 };

struct walk {
    const struct contents *there;
    size_t content;             /* the first segment that ends after the free words before */
    const struct blocks *live;
    size_t next;                /* the first live block that lies after the words that were looked at */
    uint64_t covered;           /* the end of those before */
    uint64_t from, to;          /* free words in a row */
};

static void write_between(uint64_t at, uint64_t end)
{
    for (uint64_t size; at < end; at += size) {
        size = end - at < MOST ? end - at : MOST;
        put_hex("+ 0x", at);
        put_hex(" 0x", size);
        put_hex("\n- 0x", at);
        put_text("\n");
    }
}

/* What the core has of the row: of other memory no word is read, and a small table may tell of any amount of it. A
 * single word is left out: it is mostly the size that glibc keeps between two blocks, and there is one after every
 * second block. */
static void write_row(struct walk *walk)
{
    for (; walk->to - walk->from > 8 && walk->content < walk->there->count; walk->content++) {
        const struct content *content = walk->there->list + walk->content;
        uint64_t from = content->start, to = from + content->size;
        if (from < walk->to)
            write_between(from < walk->from ? walk->from : from, to < walk->to ? to : walk->to);
        if (to >= walk->to)
            return;
    }
}

/* A word that was in a block once: it is free if no block has a byte of it now. One of size 0 counts as one byte. A
 * table that was made by hand may tell of a word again. */
static void look_at(struct walk *walk, uint64_t word)
{
    if (word < walk->to)
        return;
    for (; walk->next < walk->live->count && walk->live->list[walk->next].start < word + 8; walk->next++) {
        const struct block *block = walk->live->list + walk->next;
        uint64_t end = block->start + (block->size ? block->size : 1);
        if (walk->covered < end)
            walk->covered = end;
    }
    if (walk->covered > word)
        return;
    if (walk->to != word) {
        write_row(walk);
        walk->from = word;
    }
    walk->to = word + 8;
}

static int by_region(const void *a, const void *b)
{
    uint64_t x = **(uint64_t *const *)a, y = **(uint64_t *const *)b;

    return (x < y) - (x > y);   /* they are complemented */
}

/* The used leaves of the table, by ascending region. Gives how many. A hole of the file has none. */
static size_t find_leaves(struct file file, const uint64_t ***leaves)
{
    enum { LEAF_BYTES = 8 * LEAF_WORDS };
    const struct table_head *head = (const void *)file.bytes;
    size_t count = 0;

    for (uint64_t i = 0; i < head->leaves; i++) {
        uint64_t at = head->leaves_at + i * LEAF_BYTES, data = next_data(&file, at);
        if (data >= at + LEAF_BYTES) {
            i = (data - head->leaves_at) / LEAF_BYTES - 1;
            continue;
        }
        const uint64_t *leaf = (const uint64_t *)(file.bytes + at);
        if (*leaf) {
            *leaves = grown(*leaves, count, sizeof **leaves);
            (*leaves)[count++] = leaf;
        }
    }
    if (count)
        qsort(*leaves, count, sizeof **leaves, by_region);
    return count;
}

/* Looks at both words of each piece that has a bit. */
static void look_at_leaf(struct walk *walk, const uint64_t *leaf)
{
    for (uint64_t piece = 0; piece < LEAF_BITS; piece++) {
        uint64_t bits = leaf[1 + piece / 64] >> piece % 64;
        if (!bits) {
            piece |= 63;
            continue;
        }
        piece += __builtin_ctzll(bits);
        look_at(walk, (~leaf[0] << REGION_BITS) + (piece << PIECE_BITS));
        look_at(walk, (~leaf[0] << REGION_BITS) + (piece << PIECE_BITS) + 8);
    }
}

/* Writes what is free, given all live blocks by ascending start. */
void write_freed(struct file file, const struct core *core, const struct blocks *live)
{
    const uint64_t **leaves = NULL;
    struct walk walk = { .there = &core->contents, .live = live };
    size_t count = find_leaves(file, &leaves);

    for (size_t i = 0; i < count; i++)
        look_at_leaf(&walk, leaves[i]);
    write_row(&walk);
    free(leaves);
}
