/* The symbol and the section of an address in a mapped file. */
#include "what.h"

static struct module *read_module(struct modules *modules, long number)
{
    struct module *module = modules->list + number;

    if (!module->is_read)
        read_symbols(modules, module);
    return module;
}

static int has_address(const struct symbol *s, uint64_t at)
{
    return at >= s->at && (at - s->at < s->size || at == s->at);
}

/* The symbol whose size has the address, or NULL: of several the one that begins last. Few lie within another. */
const struct symbol *symbol_at(struct modules *modules, long number, uint64_t address)
{
    enum { TRIES = 4 };
    const struct module *module = read_module(modules, number);
    uint64_t at = address - module->bias;
    size_t low = 0, high = module->symbol_count;

    while (low < high) {
        size_t middle = low + (high - low) / 2;
        if (module->symbols[middle].at <= at)
            low = middle + 1;
        else
            high = middle;
    }
    for (int i = 0; i < TRIES && low; i++, low--)
        if (has_address(module->symbols + low - 1, at))
            return module->symbols + low - 1;
    return NULL;
}

const struct section *section_at(struct modules *modules, long number, uint64_t address)
{
    const struct module *module = read_module(modules, number);
    uint64_t at = address - module->bias;

    for (size_t i = 0; i < module->section_count; i++)
        if (at >= module->sections[i].at && at - module->sections[i].at < module->sections[i].size)
            return module->sections + i;
    return NULL;
}

/* Whether a symbol of this name begins there. One address may have several names. */
int is_exactly(struct modules *modules, long number, uint64_t address, const char *name)
{
    const struct symbol *s = symbol_at(modules, number, address);
    const struct module *module = modules->list + number;
    const struct symbol *first = module->symbols;

    while (s && s > first && s[-1].at == s->at)
        s--;
    for (; s && s < first + module->symbol_count && s->at == address - module->bias; s++)
        if (!strcmp(module->names + s->name, name))
            return 1;
    return 0;
}
