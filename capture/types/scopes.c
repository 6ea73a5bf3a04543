/* The variables, structures and classes of a file, with the namespaces and classes that they are in. */
#define _GNU_SOURCE
#include <stdio.h>
#include <stdlib.h>

#include "types.h"

static void read_children(struct debug *debug, Dwarf_Die *parent, const char *scope, int depth);

void count_step(void)
{
    static uint64_t steps;

    if (++steps > MOST_STEPS)
        fail("standard input: too much debug information");
}

/* The name with its scope, or NULL: it is too long, or the scope isn't known. */
static const char *within(const char *scope, const char *name)
{
    char *text;

    if (!scope || !*scope)
        return scope ? name : NULL;
    if (strlen(scope) + strlen(name) > MOST_NAME)
        return NULL;
    if (asprintf(&text, "%s::%s", scope, name) < 0)
        fail("out of memory");
    return text;
}

/* The name of the entry, or of the earlier one that declares it elsewhere; NULL if it has none. */
static const char *full_name(const struct debug *debug, Dwarf_Die *die, const char *scope)
{
    const char *name = dwarf_diename(die);
    Dwarf_Attribute attribute;
    Dwarf_Die declared;

    if (dwarf_attr(die, DW_AT_specification, &attribute))
        return dwarf_formref_die(&attribute, &declared)
            ? name_of_declaration(debug, &declared, debug->of_others) : NULL;
    return name ? within(scope, name) : NULL;
}

/* The scope of what is in there, or NULL. An inline namespace is left out of names, as sources leave it out. */
static const char *scope_of(const struct debug *debug, Dwarf_Die *die, const char *scope)
{
    if (dwarf_tag(die) == DW_TAG_namespace && dwarf_hasattr(die, DW_AT_export_symbols))
        return scope;
    return dwarf_diename(die) ? full_name(debug, die, scope) : within(scope, "(anonymous)");
}

/* A declaration in a function stands for nothing elsewhere. */
static void declare(struct debug *debug, Dwarf_Die *die, const char *scope)
{
    const char *name = debug->functions ? NULL : full_name(debug, die, scope);

    if (debug->declared >= MOST_LISTED)
        fail("standard input: too many declarations");
    debug->declarations = grown(debug->declarations, debug->declared, sizeof *debug->declarations);
    debug->declarations[debug->declared++] = (struct declaration){ die->addr, name };
}

static void define(struct debug *debug, Dwarf_Die *die, const char *scope)
{
    struct definition found = { .die = *die, .is_local = debug->functions > 0 };

    if (dwarf_hasattr(die, DW_AT_declaration)) {
        declare(debug, die, scope);
        return;
    }
    if (!number_of_attribute(die, DW_AT_byte_size, &found.size))
        return;
    if (debug->count >= MOST_LISTED) /* without one of two of a name the other one would stand for both */
        fail("standard input: too many structures");
    found.name = full_name(debug, die, scope);
    if (dwarf_decl_line(die, &found.line))
        found.line = 0;
    debug->list = grown(debug->list, debug->count, sizeof *debug->list);
    debug->list[debug->count++] = found;
}

/* The fixed address of a variable: gcc writes it down, clang its number in a list. One of a thread has a longer
 * expression. */
static int address_of(Dwarf_Die *die, uint64_t *at)
{
    Dwarf_Attribute location, listed;
    Dwarf_Op *operations;
    Dwarf_Addr address;
    size_t count;

    if (!dwarf_attr(die, DW_AT_location, &location) || dwarf_getlocation(&location, &operations, &count) || count != 1)
        return 0;
    *at = operations[0].number;
    if (operations[0].atom == DW_OP_addr)
        return 1;
    if ((operations[0].atom != DW_OP_addrx && operations[0].atom != DW_OP_GNU_addr_index)
        || dwarf_getlocation_attr(&location, operations, &listed) || dwarf_formaddr(&listed, &address))
        return 0;
    *at = address;
    return 1;
}

static void take_variable(struct debug *debug, Dwarf_Die *die)
{
    struct variable found;

    if (!address_of(die, &found.at) || !type_of(die, &found.type))
        return;
    if (debug->variable_count >= MOST_LISTED)
        fail("standard input: too many variables");
    debug->variables = grown(debug->variables, debug->variable_count, sizeof *debug->variables);
    debug->variables[debug->variable_count++] = found;
}

static void read_entry(struct debug *debug, Dwarf_Die *die, const char *scope, int depth)
{
    switch (dwarf_tag(die)) {
    case DW_TAG_variable:
        take_variable(debug, die);
        break;
    case DW_TAG_structure_type:
    case DW_TAG_class_type:
        define(debug, die, scope); /* fall through */
    case DW_TAG_union_type:
    case DW_TAG_namespace:
        read_children(debug, die, scope_of(debug, die, scope), depth);
        break;
    case DW_TAG_subprogram:
    case DW_TAG_lexical_block:
    case DW_TAG_inlined_subroutine:
        debug->functions++;
        read_children(debug, die, "", depth);
        debug->functions--;
        break;
    }
}

static void read_children(struct debug *debug, Dwarf_Die *parent, const char *scope, int depth)
{
    Dwarf_Die child;

    if (depth >= DEEPEST || dwarf_child(parent, &child))
        return;
    do {
        count_step();
        read_entry(debug, &child, scope, depth + 1);
    } while (!dwarf_siblingof(&child, &child));
}

static void read_units(struct debug *debug, Dwarf *dwarf)
{
    Dwarf_Off at = 0, next;
    size_t head;
    Dwarf_Die unit;

    for (; !dwarf_nextcu(dwarf, at, &next, &head, NULL, NULL, NULL) && next > at; at = next) {
        count_step();
        if (dwarf_offdie(dwarf, at + head, &unit))
            read_children(debug, &unit, "", 0);
    }
}

static int by_place(const void *a, const void *b)
{
    const struct definition *x = a, *y = b;

    return (x->die.addr > y->die.addr) - (x->die.addr < y->die.addr);
}

static int by_place_of_declaration(const void *a, const void *b)
{
    const struct declaration *x = a, *y = b;

    return (x->place > y->place) - (x->place < y->place);
}

/* Reads the file and the one that it shares entries with (dwz). */
struct debug read_debug(Dwarf *dwarf)
{
    struct debug debug = { 0 };
    Dwarf *shared = dwarf_getalt(dwarf);

    read_units(&debug, dwarf);
    debug.of_others = debug.declared;
    if (shared)
        read_units(&debug, shared);
    if (debug.declared)
        qsort(debug.declarations, debug.declared, sizeof *debug.declarations, by_place_of_declaration);
    if (debug.count)
        qsort(debug.list, debug.count, sizeof *debug.list, by_place);
    sort_names(&debug);
    find_beginnings(&debug);
    return debug;
}
