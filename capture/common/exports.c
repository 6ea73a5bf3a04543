/* Whether a file exports a function (gABI, Symbol Table). The file is the process's own, and may be anything: it is opened
 * as a place at first, so neither a FIFO nor a device is touched; and it is read by pieces, and as much as files of this
 * kind have. */
#define _GNU_SOURCE
#include <fcntl.h>
#include <stdlib.h>
#include <string.h>
#include <unistd.h>

#include "common.h"

enum { MOST_SECTIONS = 4096, MOST_TABLE = 64 << 20, FIRST_BYTES = 4 * PAGE };

/* The section's bytes, with a 0 behind them, or NULL. */
static char *section_bytes(int file, const Elf64_Shdr *section)
{
    char *bytes = section->sh_size <= MOST_TABLE ? malloc(section->sh_size + 1) : NULL;

    if (!bytes || pread(file, bytes, section->sh_size, section->sh_offset) != (ssize_t)section->sh_size) {
        free(bytes);
        return NULL;
    }
    bytes[section->sh_size] = 0;
    return bytes;
}

static int has_function(const char *symbols, uint64_t size, const char *names, uint64_t names_size, const char *name)
{
    Elf64_Sym symbol;

    for (uint64_t at = 0; size - at >= sizeof symbol; at += sizeof symbol) {
        memcpy(&symbol, symbols + at, sizeof symbol);
        if (symbol.st_shndx != SHN_UNDEF && symbol.st_name < names_size && !strcmp(names + symbol.st_name, name))
            return 1;
    }
    return 0;
}

/* Whether the table of dynamic symbols has it: 1 too if it can't be read. */
static int has_symbol(int file, const Elf64_Shdr *symbols, const Elf64_Shdr *names, const char *name)
{
    char *all = section_bytes(file, symbols), *texts = section_bytes(file, names);
    int found = !all || !texts || has_function(all, symbols->sh_size, texts, names->sh_size, name);

    free(all);
    free(texts);
    return found;
}

static int is_in_sections(int file, const Elf64_Ehdr *header, const char *name)
{
    static Elf64_Shdr sections[MOST_SECTIONS];
    ssize_t bytes = header->e_shnum * sizeof *sections;

    if (header->e_shentsize != sizeof *sections || !header->e_shnum || header->e_shnum > MOST_SECTIONS
        || pread(file, sections, bytes, header->e_shoff) != bytes)
        return 1;
    for (int i = 0; i < header->e_shnum; i++)
        if (sections[i].sh_type == SHT_DYNSYM)
            return sections[i].sh_link >= header->e_shnum || has_symbol(file, sections + i, sections + sections[i].sh_link, name);
    return 0;
}

/* Whether the file is not the one that began so in the process's memory, or may be another one. */
static int may_be_another(struct memory in_process, struct memory in_file)
{
    struct memory head = head_of_file(in_file);

    return in_process.at && (!head.at || !is_same_build(in_process, head));
}

/* Does the file of this part export the function, or can't that be told? A file that is none of ELF does not. */
int may_export(const struct part *part, const char *name)
{
    static uint8_t bytes[FIRST_BYTES] __attribute__((aligned(8)));
    int file = open_regular(part->path), found = 1;
    ssize_t size = file < 0 ? -1 : pread(file, bytes, sizeof bytes, 0);

    if (size >= 0 && !may_be_another(part->head, (struct memory){ bytes, size })) {
        found = (size_t)size >= sizeof(Elf64_Ehdr) && !memcmp(bytes, ELFMAG, SELFMAG);
        found = found && is_in_sections(file, (const Elf64_Ehdr *)bytes, name);
    }
    if (file >= 0)
        close(file);
    return found;
}
