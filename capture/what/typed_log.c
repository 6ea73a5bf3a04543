/* leak_what --types: the log with the types of blocks in place of their sizes. */
#define _GNU_SOURCE
#include <stdlib.h>

#include "types.h"

struct typed {
    struct what what;
    struct types types;
    struct label *labels;
    size_t files;               /* that have debug information */
    struct allowance left;
};

/* The file's debug information: its own, or that of its debug file. */
static struct elf with_types(const struct modules *modules, const struct module *module)
{
    struct elf elf = open_elf(modules, module);

    if (has_section(&elf, ".debug_info"))
        return elf;
    close_elf(&elf);
    elf = open_debug_file(modules, module);
    if (!has_section(&elf, ".debug_info"))
        close_elf(&elf);
    return elf;
}

static void read_module(struct typed *typed, const struct module *module)
{
    struct elf elf = { .file = -1 };
    size_t size, first = typed->types.variable_count, left = first;
    char *text;

    if (module->id_size)
        elf = with_types(&typed->what.modules, module);
    if (elf.file < 0)
        return;
    text = types_of_file(elf.file, &typed->left, &size);
    close_elf(&elf);
    if (!text) {
        warn("%s: its debug information can't be read", module->path);
        return;
    }
    typed->files++;
    add_types(&typed->types, text, size, module->bias);
    for (size_t i = first; i < typed->types.variable_count; i++) /* a variable elsewhere is none of the file's */
        if (typed->types.variables[i].at >= module->start && typed->types.variables[i].at < module->end)
            typed->types.variables[left++] = typed->types.variables[i];
    typed->types.variable_count = left;
}

/* The type that the label names, or NULL: it has no name. */
static const struct type *named_type(const struct typed *typed, const struct label *label)
{
    const struct type *type = typed->types.list + label->type;

    if (label->type == UNKNOWN_TYPE || label->is_doubtful)
        return NULL;
    if (type->kind == POINTER_TYPE)
        type = typed->types.list + type->to;
    return type->name && type->kind != POINTER_TYPE ? type : NULL;
}

static void put_label(const struct typed *typed, const struct label *label)
{
    const struct type *type = named_type(typed, label);

    put_text(type->word);
    put_type_name(type->name);
    if (typed->types.list[label->type].kind == POINTER_TYPE)
        put_text(" *");
    if (label->is_array)
        put_text(" or array");
}

/* Whether the block's first word is the address of a table of a class, which says the class by itself. */
static int has_class(struct typed *typed, const struct block *block)
{
    const struct symbol *s = NULL;
    uint64_t word;
    long module = word_at(&typed->what.core, block->start, &word) ? module_of(&typed->what.modules, word) : NONE;

    if (module != NONE)
        s = symbol_at(&typed->what.modules, module, word);
    return s && !strncmp(typed->what.modules.list[module].names + s->name, "_ZTV", 4);
}

/* Whether leak_walk wrote this text of itself: a size, or the place of the block's first word. A caller's text stays.
 */
static int is_of_walk(struct typed *typed, const char *text, const char *stop, const struct block *block)
{
    const char *bracket = memrchr(text, '[', stop - text);
    uint64_t word, place;
    long module;

    if (begins(text, stop, "size "))
        return 1;
    if (!bracket || !begins(bracket, stop, "[0x") || !word_at(&typed->what.core, block->start, &word))
        return 0;
    module = module_of(&typed->what.modules, word);
    if (module == NONE || has_class(typed, block))
        return 0;
    place = strtoull(bracket + 1, NULL, 16) - (word - typed->what.modules.list[module].bias);
    return place <= 1 && !memmem(text, stop - text, " < ", 3); /* of code it is one more */
}

/* Where the text of a line that begins a block ends, or NULL; and the number of the block that is live since, or NONE.
 */
static const char *end_of_text(const struct typed *typed, const char *at, const char *stop, long *block)
{
    const char *last = begins(at, stop, "@ ") ? memrchr(at, ' ', stop - at) : NULL;
    const char *address = last ? memrchr(at, ' ', last - at) : NULL;
    const char *sign = address ? memrchr(at, ' ', address - at) : NULL;
    uint64_t start;

    if (!sign || sign <= at + 1 || address - sign != 2 || sign[1] != '+')
        return NULL;
    start = strtoull(address + 1, NULL, 16);
    *block = block_of(&typed->what.blocks, start);
    if (*block != NONE && (typed->what.blocks.list[*block].start != start
                           || typed->what.blocks.list[*block].size != strtoull(last + 1, NULL, 16)))
        *block = NONE;
    return sign;
}

static size_t write_line(struct typed *typed, const char *at, const char *stop)
{
    long block = NONE;
    const char *end = end_of_text(typed, at, stop, &block);
    size_t is_told = end && block != NONE && named_type(typed, typed->labels + block)
        && is_of_walk(typed, at + 2, end, typed->what.blocks.list + block);

    if (is_told) {
        put_text("@ ");
        put_label(typed, typed->labels + block);
        at = end;
    }
    put_bytes((const uint8_t *)at, stop - at);
    put_text("\n");
    return is_told;
}

static void write_log(struct typed *typed, const char *path)
{
    struct file log = map_file(path);
    const char *at = (const char *)log.bytes, *stop, *end = at + log.size;
    size_t told = 0;

    if (typed->files && !is_typed(log))
        put_text(typed_remark);
    for (; at < end; at = stop + 1) {
        stop = end_of_line(log, at);
        told += write_line(typed, at, stop);
    }
    if (typed->files)
        warn("%zu of %zu blocks have a type, by the debug information of %zu files", told, typed->what.blocks.count,
             typed->files);
}

/* leak_what --types [--root DIR].. CORE LOG */
int write_typed_log(const char *core, const char *log, char **roots, size_t root_count)
{
    struct typed typed = { .what.core = read_core(core), .left = allowance_of_all() };

    typed.what.blocks = read_blocks(log, NULL);
    typed.what.modules = find_modules(&typed.what.core, roots, root_count);
    for (size_t i = 0; i < typed.what.modules.count; i++)
        if (!typed.what.modules.list[i].is_libc) /* it leaves pointers in a FILE as they were */
            read_module(&typed, typed.what.modules.list + i);
    typed.labels = typed.types.count ? find_labels(&typed.what, &typed.types)
                                     : calloc(typed.what.blocks.count, sizeof *typed.labels);
    if (!typed.labels)
        fail("out of memory");
    write_log(&typed, log);
    put_end();
    return 0;
}
