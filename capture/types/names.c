/* Types without the names and qualifiers around them, and the structure that a declaration stands for. */
#include <stdlib.h>

#include "types.h"

int is_structure(int tag)
{
    return tag == DW_TAG_structure_type || tag == DW_TAG_class_type;
}

int type_of(Dwarf_Die *die, Dwarf_Die *type)
{
    Dwarf_Attribute attribute;

    return dwarf_attr_integrate(die, DW_AT_type, &attribute) && dwarf_formref_die(&attribute, type);
}

int number_of_attribute(Dwarf_Die *die, unsigned name, uint64_t *value)
{
    Dwarf_Attribute attribute;
    Dwarf_Word word;

    if (!dwarf_attr(die, name, &attribute) || dwarf_formudata(&attribute, &word))
        return 0;
    *value = word;
    return 1;
}

/* The definition whose entry this is, or NULL. */
const struct definition *definition_of(const struct debug *debug, const Dwarf_Die *die)
{
    size_t low = 0, high = debug->count;

    while (low < high) {
        size_t middle = low + (high - low) / 2;
        if (debug->list[middle].die.addr < die->addr)
            low = middle + 1;
        else
            high = middle;
    }
    return low < debug->count && debug->list[low].die.addr == die->addr ? debug->list + low : NULL;
}

/* The full name that is declared there, or NULL. Those from the first one on are looked through. */
const char *name_of_declaration(const struct debug *debug, const Dwarf_Die *die, size_t first)
{
    size_t low = first, high = debug->declared;

    while (low < high) {
        size_t middle = low + (high - low) / 2;
        if (debug->declarations[middle].place < die->addr)
            low = middle + 1;
        else
            high = middle;
    }
    return low < debug->declared && debug->declarations[low].place == die->addr ? debug->declarations[low].name : NULL;
}

static int by_name(const void *a, const void *b)
{
    return strcmp((*(struct definition *const *)a)->name, (*(struct definition *const *)b)->name);
}

void sort_names(struct debug *debug)
{
    debug->by_name = calloc(debug->count + 1, sizeof *debug->by_name);
    if (!debug->by_name)
        fail("out of memory");
    for (size_t i = 0; i < debug->count; i++)
        if (debug->list[i].name && !debug->list[i].is_local)
            debug->by_name[debug->named++] = debug->list + i;
    if (debug->named)
        qsort(debug->by_name, debug->named, sizeof *debug->by_name, by_name);
}

/* The only structure of this name, or NULL: two that differ have one name in two sources. */
static const struct definition *named(const struct debug *debug, const char *name)
{
    size_t low = 0, high = debug->named;
    const struct definition *first;

    while (low < high) {
        size_t middle = low + (high - low) / 2;
        if (strcmp(debug->by_name[middle]->name, name) < 0)
            low = middle + 1;
        else
            high = middle;
    }
    if (low == debug->named || strcmp(debug->by_name[low]->name, name))
        return NULL;
    first = debug->by_name[low];
    for (size_t i = low; i < debug->named && !strcmp(debug->by_name[i]->name, name); i++)
        if (debug->by_name[i]->size != first->size || debug->by_name[i]->line != first->line)
            return NULL;
    return first;
}

/* Goes on to the type that is meant: past typedefs and qualifiers, and from a declaration to its definition. The last
 * typedef's name is in `alias`. Gives 0 for void, and for what is not defined here. */
int peel(const struct debug *debug, Dwarf_Die *die, const char **alias)
{
    for (int i = 0; i < MOST_PEELED; i++) {
        int tag = dwarf_tag(die);
        count_step();
        if (is_structure(tag) && dwarf_hasattr(die, DW_AT_declaration)) {
            const char *name = name_of_declaration(debug, die, 0);
            const struct definition *found = name ? named(debug, name) : NULL;
            if (found)
                *die = found->die;
            return found != NULL;
        }
        if (tag == DW_TAG_typedef)
            *alias = dwarf_diename(die);
        else if (tag != DW_TAG_const_type && tag != DW_TAG_volatile_type && tag != DW_TAG_restrict_type
                 && tag != DW_TAG_atomic_type)
            return 1;
        if (!type_of(die, die))
            return 0;
    }
    return 0;
}
