/* Which structures begin with another one: a member or a base class at the start, or the same members in the same
 * places. A pointer to the shorter one may lead to either. */
#include <stdlib.h>

#include "types.h"

static uint64_t mixed(uint64_t key, uint64_t value)
{
    key = (key ^ value) * 0x9e3779b97f4a7c15u;
    return key ^ key >> 29;
}

static uint64_t key_of_name(uint64_t key, const char *name)
{
    for (; name && *name; name++)
        key = mixed(key, (unsigned char)*name);
    return key;
}

static void add(struct debug *debug, uint64_t key, const struct definition *outer)
{
    if (debug->beginning_count >= MOST_BEGINNINGS)
        fail("standard input: too many structures");
    debug->beginnings = grown(debug->beginnings, debug->beginning_count, sizeof *debug->beginnings);
    debug->beginnings[debug->beginning_count++] = (struct beginning){ key, outer, 0 };
}

/* The structure that the member is, or NULL. */
static const struct definition *structure_of(const struct debug *debug, Dwarf_Die *member)
{
    const char *alias;
    Dwarf_Die type;

    return type_of(member, &type) && peel(debug, &type, &alias) ? definition_of(debug, &type) : NULL;
}

/* A key of all members, by their names and places; 0 if a place isn't known. With `outer` each number of first members
 * is kept as what that structure begins with, and so is what the first member begins with. */
static uint64_t key_of_members(struct debug *debug, const struct definition *of, const struct definition *outer,
                               int depth)
{
    Dwarf_Die die = of->die, member;
    uint64_t key = 1, offset;

    if (dwarf_child(&die, &member))
        return 0;
    do {
        int tag = dwarf_tag(&member);
        const struct definition *inner;
        count_step();
        if ((tag != DW_TAG_member && tag != DW_TAG_inheritance) || dwarf_hasattr(&member, DW_AT_external))
            continue;
        if (!number_of_attribute(&member, DW_AT_data_member_location, &offset))
            return 0;
        inner = outer && !offset && key == 1 && depth < MOST_WITHIN ? structure_of(debug, &member) : NULL;
        if (inner)
            add(debug, key_of_members(debug, inner, outer, depth + 1), outer);
        key = key_of_name(mixed(key, offset), dwarf_diename(&member));
        if (outer)
            add(debug, key, outer);
    } while (!dwarf_siblingof(&member, &member));
    if (key == 1)
        return 0;
    if (outer && !depth)
        debug->beginnings[debug->beginning_count - 1].is_whole = 1;
    return key;
}

static int by_key(const void *a, const void *b)
{
    const struct beginning *x = a, *y = b;

    if (x->key != y->key)
        return x->key < y->key ? -1 : 1;
    return (x->of->size > y->of->size) - (x->of->size < y->of->size);
}

/* Of each key each size once: thousands of C++ structures begin with the same member. */
void find_beginnings(struct debug *debug)
{
    struct beginning *list;
    size_t kept = 0;

    for (size_t i = 0; i < debug->count; i++)
        key_of_members(debug, debug->list + i, debug->list + i, 0);
    list = debug->beginnings;
    if (debug->beginning_count)
        qsort(list, debug->beginning_count, sizeof *list, by_key);
    for (size_t i = 0; i < debug->beginning_count; i++)
        if (!list[i].is_whole && (!kept || by_key(list + kept - 1, list + i)))
            list[kept++] = list[i];
    debug->beginning_count = kept;
}

/* Writes how large the other structures are that begin with this one, each size once. */
void write_beginnings(struct debug *debug, const struct definition *structure)
{
    uint64_t key = key_of_members(debug, structure, NULL, 0);
    size_t low = 0, high = debug->beginning_count;

    while (low < high) {
        size_t middle = low + (high - low) / 2;
        if (debug->beginnings[middle].key < key)
            low = middle + 1;
        else
            high = middle;
    }
    for (; key && low < debug->beginning_count && debug->beginnings[low].key == key; low++) {
        count_step();
        put_text("begins ");
        put_number(debug->beginnings[low].of->size);
        put_text("\n");
    }
}
