/* The entries of a table, and their callers in the words of mtrace. */
#include <string.h>

#include "entries.h"

int by_start_and_stamp(const void *a, const void *b)
{
    const struct block *x = a, *y = b;

    if (x->start != y->start)
        return x->start < y->start ? -1 : 1;
    return (x->stamp > y->stamp) - (x->stamp < y->stamp);
}

/* The head of a whole table of the process that has these files mapped. */
static const struct table_head *head_of(struct file file, const struct parts *parts)
{
    const struct table_head *head = (const void *)file.bytes;

    if (file.size < HEAD_BYTES || memcmp(head->magic, TABLE_MAGIC, sizeof head->magic))
        fail("%s: not a table of leak_trace", file.path);
    if (head->depth < 1 || head->depth > MAX_DEPTH
        || head->used > (file.size - HEAD_BYTES) / 8 / (ENTRY_CALLERS + head->depth)
        || head->leaves_at > file.size || head->leaves_at % 8
        || head->leaves > (file.size - head->leaves_at) / 8 / LEAF_WORDS)
        fail("%s: the table is cut off", file.path);
    for (size_t i = 0; i < parts->count; i++)
        if (parts->list[i].start == head->base && !parts->list[i].offset)
            return head;
    fail("%s: the table is not of this core's process", file.path);
}

/* The entry, or the first one after it that has a byte of data: a table is sparse, and holes hold no blocks. */
static uint64_t next_entry(struct file *file, uint64_t entry, uint64_t bytes)
{
    uint64_t at = HEAD_BYTES + entry * bytes, data = next_data(file, at);

    return data < at + bytes ? entry : (data - HEAD_BYTES) / bytes;
}

struct entries read_entries(struct file file, const struct parts *parts)
{
    struct entries entries = { .head = head_of(file, parts) };
    const uint64_t words = ENTRY_CALLERS + entries.head->depth, used = entries.head->used;

    for (uint64_t i = next_entry(&file, 0, words * 8); i < used; i = next_entry(&file, i + 1, words * 8)) {
        const uint64_t *word = (const uint64_t *)(file.bytes + HEAD_BYTES) + i * words;
        entries.moving += word[ENTRY_START] && !(word[ENTRY_START] & ENTRY_HELD);
        if (!(word[ENTRY_START] & ENTRY_HELD))
            continue;
        entries.list = grown(entries.list, entries.count, sizeof *entries.list);
        entries.list[entries.count++] = (struct block){ ~word[ENTRY_START], ~word[ENTRY_SIZE], ~word[ENTRY_STAMP],
                                                        word + ENTRY_CALLERS };
    }
    return entries;
}

/* `PATH:[0xADDR] < PATH:[0xADDR]`: first who asked for the block, then his callers. */
void put_callers(struct parts *parts, uint64_t room, const struct block *block, uint64_t depth)
{
    for (uint64_t k = 0; k < depth && (!k || ~block->callers[k]); k++) {
        uint64_t caller = ~block->callers[k];
        const struct part *part = part_of(parts, caller);
        if (part && !takes_path(parts, part, room))
            part = NULL;
        if (k)
            put_text(" < ");
        if (part)
            put_text(part->path);
        put_hex(part ? ":[0x" : "[0x", caller + (part ? part->bias : 0));
        put_text("]");
    }
}
