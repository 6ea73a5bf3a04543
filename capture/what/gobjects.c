/* Objects of GLib by the name of their type, where their memory is malloc's (GLib 2.76 and later). An object leads to
 * its class, that to its type, and both must lead back; the type's name is a number, which GLib has a table for. */
#include "what.h"

/* GLib 2.84, gtype.c: struct _TypeNode and struct _InstanceData. */
enum { DATA_AT = 24, NAME_AT = 32, SELF_AT = 64, CLASS_AT = 56, SIZES_AT = 64, HALF_BITS = 16 };
enum { ALIGNMENT = 2 * WORD, MOST_PRIVATE = 4096 };     /* an object's private data is before it */
enum { NAMES_EACH = 2048, FIRST_NAMES = 64 };           /* gquark.c */
enum { MOST_SCANNED = 1 << 20 };
static const char early_name[] = "-g-type-private--GTypeFlags"; /* gtype.c has it before there is any type */

static int is_early_name(struct what *what, uint64_t place)
{
    const uint8_t *bytes;
    uint64_t name;

    return word_at(&what->core, place, &name) && name_at(what, name, &bytes) == strlen(early_name)
        && !memcmp(bytes, early_name, strlen(early_name));
}

/* Whether GLib's table of names is there: a block of its own, in which the first name is none. */
static int is_table(struct what *what, uint64_t address)
{
    long block = block_of(&what->blocks, address);
    uint64_t size = block == NONE ? 0 : what->blocks.list[block].size, first;

    if (!size || what->blocks.list[block].start != address
        || !fits_block(size / (NAMES_EACH * WORD) * NAMES_EACH * WORD, size)
        || !word_at(&what->core, address, &first) || first)
        return 0;
    for (int i = 1; i < FIRST_NAMES; i++)
        if (is_early_name(what, address + i * WORD))
            return 1;
    return 0;
}

/* Looks for the table that variables in [at, at + size) lead to; two are as much as none. */
static void find_table(struct what *what, uint64_t at, uint64_t size)
{
    struct type_names *names = &what->type_names;
    uint64_t left = MOST_SCANNED - names->scanned, most = size < left ? size : left, place, word;
    struct reader reader = { &what->core, at, at + most, NULL, 0 };

    names->scanned += most;
    while (next_word(&reader, &place, &word))
        if (word != names->table && is_table(what, word)) {
            names->is_doubtful |= names->table != 0;
            names->table = word;
        }
}

static void find_names(struct what *what)
{
    long library = library_of(&what->modules, "libgobject-2.0.so");
    const struct module *module;

    what->type_names.is_looked_for = 1;
    if (library != NONE)
        library = library_of(&what->modules, "libglib-2.0.so");
    if (library == NONE)
        return;
    module = what->modules.list + library;
    section_at(&what->modules, library, module->start); /* reads its sections */
    for (size_t i = 0; i < module->section_count; i++)
        if (module->sections[i].is_writable)
            find_table(what, module->sections[i].at + module->bias, module->sections[i].size);
}

/* The name with this number. Gives its length. */
static uint64_t type_name(struct what *what, uint32_t number, const uint8_t **bytes)
{
    const struct type_names *names = &what->type_names;
    uint64_t name;

    if (number >= what->blocks.list[block_of(&what->blocks, names->table)].size / WORD
        || !word_at(&what->core, names->table + number * (uint64_t)WORD, &name))
        return 0;
    return name_at(what, name, bytes);
}

/* Whether an object of this class, before which so many bytes are private data, has the block's size. */
static int has_class(struct what *what, const struct block *block, uint64_t before, uint64_t class,
                     struct object *object)
{
    struct core *core = &what->core;
    uint64_t type, self, data, same, sizes, name;

    if (block_of(&what->blocks, class) == NONE || !word_at(core, class, &type)
        || !word_at(core, type + SELF_AT, &self) || self != type || !word_at(core, type + DATA_AT, &data)
        || !word_at(core, data + CLASS_AT, &same) || same != class || !word_at(core, data + SIZES_AT, &sizes)
        || (sizes >> HALF_BITS & 0xffff) != before || !fits_block(before + (sizes & 0xffff), block->size)
        || !word_at(core, type + NAME_AT, &name))
        return 0;
    object->length = type_name(what, (uint32_t)name, &object->name);
    return object->length != 0;
}

/* Whether it is an object of GLib. */
int is_gobject(struct what *what, const struct block *block, struct object *object)
{
    uint64_t class;

    if (!what->type_names.is_looked_for)
        find_names(what);
    if (!what->type_names.table || what->type_names.is_doubtful)
        return 0;
    for (uint64_t at = 0; at + WORD <= block->size && at <= MOST_PRIVATE; at += ALIGNMENT)
        if (word_at(&what->core, block->start + at, &class) && has_class(what, block, at, class, object))
            return 1;
    return 0;
}
