/* The types that variables lead to, a line each, numbered from 1 in the order of their lines; then the variables.
 * docs/FORMAT.md has the form of the lines. */
#include <search.h>
#include <stdlib.h>

#include "types.h"

enum { MOST_TYPES = 1 << 18 };

struct type {
    const void *place;          /* of its entry */
    uint32_t number;
    Dwarf_Die die;
    const char *alias;
};

struct types {
    struct debug *debug;
    struct type **list;
    size_t count;
    void *by_place;             /* a tree */
};

static int compare_places(const void *a, const void *b)
{
    const struct type *x = a, *y = b;

    return (x->place > y->place) - (x->place < y->place);
}

/* The number of the type, which is kept to be written; 0 of one that isn't known. */
static uint32_t number_of(struct types *types, Dwarf_Die die)
{
    struct type *type = calloc(1, sizeof *type);
    struct type **node;

    if (!type)
        fail("out of memory");
    if (!peel(types->debug, &die, &type->alias)) {
        free(type);
        return 0;
    }
    type->place = die.addr;
    node = tsearch(type, &types->by_place, compare_places);
    if (!node)
        fail("out of memory");
    if (*node != type) {
        free(type);
        return (*node)->number;
    }
    if (types->count >= MOST_TYPES)
        fail("standard input: too many types");
    type->die = die;
    types->list = grown(types->list, types->count, sizeof *types->list);
    types->list[types->count++] = type;
    return type->number = types->count;
}

static void put_numbers(const char *word, uint64_t first, uint64_t second)
{
    put_text(word);
    put_number(first);
    put_text(" ");
    put_number(second);
    put_text("\n");
}

/* Whether something in there may be a pointer: what has none is not written. */
static int may_lead(const struct debug *debug, Dwarf_Die type)
{
    const char *alias;

    for (int i = 0; i < DEEPEST; i++) {
        int tag = peel(debug, &type, &alias) ? dwarf_tag(&type) : 0;
        if (tag != DW_TAG_array_type)
            return is_structure(tag) || tag == DW_TAG_pointer_type || tag == DW_TAG_reference_type
                || tag == DW_TAG_rvalue_reference_type;
        if (!type_of(&type, &type))
            return 0;
    }
    return 0;
}

/* How many elements a dimension has. In some languages the first one is number 1. */
static uint64_t elements_in(Dwarf_Die *dimension)
{
    uint64_t count, first = 0, last;
    Dwarf_Sword usual;
    Dwarf_Die unit;

    if (number_of_attribute(dimension, DW_AT_count, &count))
        return count;
    if (!number_of_attribute(dimension, DW_AT_upper_bound, &last))
        return 0;
    if (!number_of_attribute(dimension, DW_AT_lower_bound, &first) && dwarf_diecu(dimension, &unit, NULL, NULL)
        && !dwarf_default_lower_bound(dwarf_srclang(&unit), &usual))
        first = usual;
    return last + 1 > first ? last + 1 - first : 0;
}

/* Of several dimensions the product; of elements that don't stand side by side 0. */
static uint64_t elements_of(Dwarf_Die *array)
{
    uint64_t product = 1;
    int dimensions = 0;
    Dwarf_Die child;

    if (dwarf_hasattr(array, DW_AT_byte_stride) || dwarf_hasattr(array, DW_AT_bit_stride) || dwarf_child(array, &child))
        return 0;
    do {
        count_step();
        if (dwarf_tag(&child) != DW_TAG_subrange_type)
            continue;
        dimensions++;
        if (__builtin_mul_overflow(product, elements_in(&child), &product))
            return 0;
    } while (!dwarf_siblingof(&child, &child));
    return dimensions ? product : 0;
}

/* Writes of the type of a structure's last member how large its elements are, if it is an array without a length: then
 * the structure may be as long as it likes. */
static void write_flexible(const struct debug *debug, Dwarf_Die type)
{
    const char *alias;
    uint64_t size;

    if (!peel(debug, &type, &alias) || dwarf_tag(&type) != DW_TAG_array_type || elements_of(&type)
        || !type_of(&type, &type) || dwarf_aggregate_size(&type, &size) || !size)
        return;
    put_text("flexible ");
    put_number(size);
    put_text("\n");
}

static void write_members(struct types *types, Dwarf_Die *structure)
{
    Dwarf_Die member, type = { 0 };
    int is_known = 0;

    if (dwarf_child(structure, &member))
        return;
    do {
        int tag = dwarf_tag(&member);
        uint64_t offset;
        count_step();
        if (tag != DW_TAG_member && tag != DW_TAG_inheritance)
            continue;
        is_known = !dwarf_hasattr(&member, DW_AT_bit_size) && type_of(&member, &type)
            && number_of_attribute(&member, DW_AT_data_member_location, &offset);
        if (is_known && may_lead(types->debug, type))
            put_numbers("member ", offset, number_of(types, type));
    } while (!dwarf_siblingof(&member, &member));
    if (is_known)
        write_flexible(types->debug, type);
}

/* A name in one line. One that is too long is none. */
static void put_word(const char *name)
{
    size_t length = name ? strnlen(name, MOST_NAME + 1) : 0;

    put_text(" ");
    for (size_t i = 0; length <= MOST_NAME && i < length; i++)
        put_bytes((const uint8_t *)(name[i] == '\n' ? "?" : name + i), 1);
    put_text("\n");
}

static void write_structure(struct types *types, const struct type *type)
{
    const struct definition *known = definition_of(types->debug, &type->die);
    Dwarf_Die die = type->die;
    const char *name = known && known->name ? known->name : dwarf_diename(&die) ? NULL : type->alias;
    int is_alias = !known || !known->name;
    uint64_t size = 0;

    number_of_attribute(&die, DW_AT_byte_size, &size);
    put_text(is_alias ? "alias " : dwarf_tag(&die) == DW_TAG_class_type ? "class " : "struct ");
    put_number(size);
    put_word(name);
    write_members(types, &die);
    if (known)
        write_beginnings(types->debug, known);
}

static void write_type(struct types *types, const struct type *type)
{
    Dwarf_Die die = type->die, to;
    int tag = dwarf_tag(&die);

    if (is_structure(tag)) {
        write_structure(types, type);
    } else if (tag == DW_TAG_array_type && type_of(&die, &to)) {
        put_numbers("array ", elements_of(&die), number_of(types, to));
    } else if (tag == DW_TAG_pointer_type || tag == DW_TAG_reference_type || tag == DW_TAG_rvalue_reference_type) {
        put_text("pointer ");
        put_number(type_of(&die, &to) ? number_of(types, to) : 0);
        put_text("\n");
    } else {
        put_text("other");
        put_word(tag == DW_TAG_base_type ? dwarf_diename(&die) : NULL);
    }
}

void write_types(struct debug *debug)
{
    struct types types = { .debug = debug };
    uint32_t *of_variable = calloc(debug->variable_count + 1, sizeof *of_variable);

    if (!of_variable)
        fail("out of memory");
    for (size_t i = 0; i < debug->variable_count; i++)
        if (may_lead(debug, debug->variables[i].type))
            of_variable[i] = number_of(&types, debug->variables[i].type);
    for (size_t i = 0; i < types.count; i++)
        write_type(&types, types.list[i]);
    for (size_t i = 0; i < debug->variable_count; i++)
        if (of_variable[i])
            put_numbers("variable ", debug->variables[i].at, of_variable[i]);
    free(of_variable);
}
