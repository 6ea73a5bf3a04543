/* Symbols, sections and constants of a mapped file (gABI, Section Header, Symbol Table). The file may be anything by
 * now: each number in it is doubted, and what is wrong tells nothing. */
#include <stdlib.h>

#include "what.h"

enum { MOST_CONSTANTS = 8 << 20, MOST_KEPT = 256 };

/* The bytes of a section of constants, which a core need not have. */
static char *constants_of(struct modules *modules, const struct elf *elf, const Elf64_Shdr *s, const char *name)
{
    int is_wanted = !strncmp(name, ".rodata", strlen(".rodata")) && s->sh_type == SHT_PROGBITS
        && s->sh_size <= modules->room;
    char *bytes = is_wanted ? part_of_file(elf->file, s->sh_offset, s->sh_size, MOST_CONSTANTS) : NULL;

    modules->room -= bytes ? s->sh_size : 0;
    return bytes;
}

static void take_sections(struct modules *modules, struct module *module, const struct elf *elf)
{
    const Elf64_Shdr *table = elf->names < elf->count ? elf->sections + elf->names : NULL;
    char *names = table ? part_of_file(elf->file, table->sh_offset, table->sh_size, MOST_NAMES) : NULL;

    for (uint64_t i = 0; i < elf->count && module->section_count < MOST_KEPT; i++) {
        const Elf64_Shdr *s = elf->sections + i;
        const char *name = names && s->sh_name < table->sh_size ? names + s->sh_name : "";
        if (!(s->sh_flags & SHF_ALLOC) || s->sh_flags & SHF_TLS || !s->sh_addr)
            continue;
        module->sections = grown(module->sections, module->section_count, sizeof *module->sections);
        module->sections[module->section_count++] = (struct section){
            s->sh_addr, s->sh_size, (s->sh_flags & SHF_WRITE) != 0, (s->sh_flags & SHF_EXECINSTR) != 0,
            constants_of(modules, elf, s, name) };
    }
    free(names);
}

static int by_address(const void *a, const void *b)
{
    const struct symbol *x = a, *y = b;

    if (x->at != y->at)
        return x->at < y->at ? -1 : 1;
    return x->size != y->size ? (x->size < y->size ? -1 : 1) : (x->name > y->name) - (x->name < y->name);
}

static void add_symbol(struct module *module, const char *bytes, uint64_t names_size)
{
    Elf64_Sym s;
    int type;

    memcpy(&s, bytes, sizeof s);
    type = ELF64_ST_TYPE(s.st_info);
    if (type != STT_FUNC && type != STT_OBJECT && type != STT_GNU_IFUNC)
        return;
    if (!s.st_shndx || !s.st_value || s.st_name >= names_size)
        return;
    module->symbols = grown(module->symbols, module->symbol_count, sizeof *module->symbols);
    module->symbols[module->symbol_count++] =
        (struct symbol){ s.st_value, s.st_size < UINT32_MAX ? s.st_size : UINT32_MAX, s.st_name };
}

/* Takes functions and variables of the section, and the section with their names. */
static void take_symbols(struct modules *modules, struct module *module, const struct elf *elf, const Elf64_Shdr *s)
{
    const Elf64_Shdr *table = s->sh_link < elf->count ? elf->sections + s->sh_link : NULL;
    uint64_t room = modules->room < MOST_TABLE ? modules->room : MOST_TABLE;
    char *symbols = NULL;

    if (table && table->sh_size < room)
        symbols = part_of_file(elf->file, s->sh_offset, s->sh_size, room - table->sh_size);
    module->names = symbols ? part_of_file(elf->file, table->sh_offset, table->sh_size, room) : NULL;
    if (module->names)
        modules->room -= table->sh_size + s->sh_size;
    for (uint64_t i = 0; module->names && i < s->sh_size / sizeof(Elf64_Sym); i++)
        add_symbol(module, symbols + i * sizeof(Elf64_Sym), table->sh_size);
    free(symbols);
    if (module->symbol_count)
        qsort(module->symbols, module->symbol_count, sizeof *module->symbols, by_address);
}

static const Elf64_Shdr *section_of_type(const struct elf *elf, uint32_t type)
{
    for (uint64_t i = 0; i < elf->count; i++)
        if (elf->sections[i].sh_type == type)
            return elf->sections + i;
    return NULL;
}

/* Reads what the file and its debug file have, once: all symbols, or of a stripped file those for the loader. */
void read_symbols(struct modules *modules, struct module *module)
{
    struct elf elf = { .file = -1 }, debug = { .file = -1 };
    const Elf64_Shdr *own = NULL, *further = NULL;

    module->is_read = 1;
    if (!module->id_size)
        return;
    elf = open_elf(modules, module);
    take_sections(modules, module, &elf);
    own = section_of_type(&elf, SHT_SYMTAB);
    if (!own) {
        debug = open_debug_file(modules, module);
        further = section_of_type(&debug, SHT_SYMTAB);
    }
    if (!own && !further)
        own = section_of_type(&elf, SHT_DYNSYM);
    if (further)
        take_symbols(modules, module, &debug, further);
    else if (own)
        take_symbols(modules, module, &elf, own);
    close_elf(&elf);
    close_elf(&debug);
}
