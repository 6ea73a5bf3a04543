/* The first instructions of a function, for another place: what a jump there takes away. */
#include <string.h>

#include "attach.h"

enum { MOST_TAKEN = SAVED_BYTES };

/* Writes the distance from the end of its four bytes to the address, if it fits. */
static bool put_distance(uint8_t *at, uint64_t there, uint64_t to)
{
    int64_t far = (int64_t)(to - (there + 4));
    int32_t distance = (int32_t)far;

    memcpy(at, &distance, sizeof distance);
    return far == distance;
}

/* A jump becomes one of 32 bits. One into what is taken away would lead into the jump's bytes, and one to its start would
 * be another call. */
static bool move_branch(struct moved *moved, const uint8_t *code, const struct instruction *i, uint64_t from, uint64_t to)
{
    int32_t distance = (int8_t)code[i->bytes - 1];
    uint64_t start = from - moved->taken;

    if (i->bytes - i->branch != (i->is_conditional && i->branch == 4 ? 2 : 1))
        return false;           /* it has a prefix */
    if (i->branch == 4)
        memcpy(&distance, code + i->bytes - 4, sizeof distance);
    uint64_t leads = from + i->bytes + (int64_t)distance;
    if (leads >= start && leads < start + MOST_TAKEN)
        return false;
    if (i->is_conditional) {
        moved->code[moved->bytes++] = 0x0f;
        moved->code[moved->bytes++] = 0x80 | (code[i->branch == 4] & 15);
    } else {
        moved->code[moved->bytes++] = 0xe9;
    }
    bool fits = put_distance(moved->code + moved->bytes, to + moved->bytes, leads);
    moved->bytes += 4;
    return fits && (i->is_conditional || moved->taken + i->bytes >= JUMP_BYTES);    /* what follows a jmp is another's */
}

static bool move_plain(struct moved *moved, const uint8_t *code, const struct instruction *i, uint64_t from, uint64_t to)
{
    uint8_t *at = moved->code + moved->bytes;
    int32_t distance;
    bool fits = true;

    memcpy(at, code, i->bytes);
    if (i->relative) {
        memcpy(&distance, code + i->relative, sizeof distance);
        uint64_t behind = i->bytes - i->relative - 4;   /* the distance counts from the instruction's end */
        fits = put_distance(at + i->relative, to + moved->bytes + i->relative, from + i->bytes + (int64_t)distance - behind);
    }
    moved->bytes += i->bytes;
    return fits;
}

/* Writes the instructions for `to`, and a jump behind them. */
struct moved move_code(const uint8_t code[32], uint64_t from, uint64_t size, uint64_t to)
{
    struct moved moved = { 0 }, none = { 0 };

    while (moved.taken < JUMP_BYTES) {
        struct instruction i = decode(code + moved.taken);
        if (!i.bytes || i.is_fixed || moved.taken + i.bytes > MOST_TAKEN
            || (size && (uint64_t)moved.taken + i.bytes > size))
            return none;
        if (!(i.branch ? move_branch : move_plain)(&moved, code + moved.taken, &i, from + moved.taken, to))
            return none;
        moved.taken += i.bytes;
    }
    uint64_t rest = from + moved.taken;
    memcpy(moved.code + moved.bytes, "\xff\x25\0\0\0\0", 6);    /* jmp *0(%rip) */
    memcpy(moved.code + moved.bytes + 6, &rest, sizeof rest);
    moved.bytes += 14;
    return moved;
}

/* Whether the function lies in code of libc that is this process's own: what is written into shared memory others would
 * run too. */
static bool is_own_code(const struct target *target, uint64_t at)
{
    const struct span *code = &target->libc.code;

    for (const struct mapping *m = target->maps.list; m < target->maps.list + target->maps.count; m++)
        if (at >= m->start && at < m->end)
            return m->flags & PF_X && (m->kind == PRIVATE_FILE || m->kind == ANONYMOUS) && m->end - at >= SAVED_BYTES
                && at >= code->start && at < code->end;
    return false;
}

/* Finds the functions, and how many bytes a jump takes of each. Two names of one function are one. */
void find_entries(struct target *target)
{
    for (int k = 0; k < FUNCTIONS; k++) {
        struct entry *entry = target->entries + k;
        *entry = (struct entry){ 0 };
        entry->at = find_symbol(&target->libc, function_names[k], &entry->size);
        if (!entry->at)
            continue;
        if (!is_own_code(target, entry->at))
            fail("process %d: its libc says that %s lies where no code of libc is", target->process.id,
                 function_names[k]);
        get(target, entry->at, entry->code, sizeof entry->code);
        entry->taken = move_code(entry->code, entry->at, entry->size, entry->at).taken;
        const uint8_t *c = entry->code;
        if (!entry->taken)
            fail("the first instructions of %s are none that can be moved: %02x %02x %02x %02x %02x %02x %02x %02x", function_names[k],
                 c[0], c[1], c[2], c[3], c[4], c[5], c[6], c[7]);
    }
}
