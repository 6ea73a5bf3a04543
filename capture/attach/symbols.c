/* The dynamic symbols of a mapped file, as the process has them in its memory, which may be hostile: sizes are bounded.
 * While the process goes on it may map and unmap files, so what can't be read is noted, and may be read the next time. */
#include <stdio.h>
#include <stdlib.h>
#include <string.h>

#include "attach.h"

enum { MOST_DYNAMIC = 1024, MOST_SYMBOLS = 1 << 20, MOST_STRINGS = 64 << 20, MOST_BUCKETS = 1 << 20 };

/* Bytes of symbols and strings in all files: a process may map any number of files. */
static const uint64_t MOST_BYTES = 512 << 20;
static const size_t UNREADABLE = SIZE_MAX;

/* As try_get, but what can't be read is noted. */
bool get_or_note(struct target *target, uint64_t address, void *to, size_t size)
{
    if (try_get(target, address, to, size))
        return true;
    snprintf(target->unread, sizeof target->unread, "%zu bytes at 0x%llx can't be read", size,
             (unsigned long long)address);
    return false;
}

/* Where the module's tables are (gABI, Dynamic Section). ld.so adds the bias to such addresses, or not. */
struct dynamic {
    uint64_t symbols, strings, string_bytes, hash, gnu_hash;
};

static bool read_dynamic(struct target *target, const struct module *module, const Elf64_Phdr *header,
                         struct dynamic *found)
{
    static Elf64_Dyn list[MOST_DYNAMIC];
    size_t most = header->p_memsz / sizeof *list, count = most < MOST_DYNAMIC ? most : MOST_DYNAMIC;

    if (!get_or_note(target, module->bias + header->p_vaddr, list, count * sizeof *list))
        return false;
    for (Elf64_Dyn *d = list; d < list + count && d->d_tag; d++) {
        uint64_t address = d->d_un.d_ptr < module->base ? d->d_un.d_ptr + module->bias : d->d_un.d_ptr;
        switch (d->d_tag) {
        case DT_SYMTAB: found->symbols = address; break;
        case DT_STRTAB: found->strings = address; break;
        case DT_STRSZ: found->string_bytes = d->d_un.d_val; break;
        case DT_HASH: found->hash = address; break;
        case DT_GNU_HASH: found->gnu_hash = address; break;
        }
    }
    return true;
}

/* The number behind a chain of DT_GNU_HASH, whose last entry is odd, or more than there may be, or UNREADABLE. */
static size_t end_of_chain(struct target *target, uint64_t at, size_t number)
{
    uint32_t piece[PAGE / sizeof(uint32_t)];

    while (number <= MOST_SYMBOLS && !(at % sizeof *piece)) {
        size_t count = (PAGE - at % PAGE) / sizeof *piece;
        if (!get_or_note(target, at, piece, count * sizeof *piece))
            return UNREADABLE;
        for (size_t i = 0; i < count; i++, number++)
            if (piece[i] & 1)
                return number + 1;
        at += count * sizeof *piece;
    }
    return MOST_SYMBOLS + 1;
}

/* How many symbols there are, by the table that finds them, or UNREADABLE. */
static size_t count_symbols(struct target *target, const struct dynamic *dynamic)
{
    static uint32_t buckets[MOST_BUCKETS];
    uint32_t head[4], most = 0;

    if (dynamic->hash)
        return get_or_note(target, dynamic->hash, head, 2 * sizeof *head) ? head[1] : UNREADABLE;
    if (!dynamic->gnu_hash)
        return 0;
    if (!get_or_note(target, dynamic->gnu_hash, head, sizeof head))
        return UNREADABLE;
    if (head[0] > MOST_BUCKETS)
        return MOST_SYMBOLS + 1;
    uint64_t at = dynamic->gnu_hash + sizeof head + 8ull * head[2];
    if (!get_or_note(target, at, buckets, head[0] * sizeof *buckets))
        return UNREADABLE;
    for (uint32_t i = 0; i < head[0]; i++)
        most = buckets[i] > most ? buckets[i] : most;
    return most < head[1] || !most ? most : end_of_chain(target, at + 4ull * head[0] + 4ull * (most - head[1]), most);
}

static bool note_many(struct target *target, const char *path)
{
    snprintf(target->unread, sizeof target->unread, "%s has more symbols than are looked at, so it may have a malloc",
             path);
    return false;
}

/* Gives false if they can't be read, and notes why. */
static bool read_symbols(struct target *target, struct module *module, const struct dynamic *dynamic)
{
    size_t count = count_symbols(target, dynamic);

    if (count == UNREADABLE)
        return false;
    if (count > MOST_SYMBOLS || dynamic->string_bytes > MOST_STRINGS)
        return note_many(target, module->path);
    uint64_t bytes = count * sizeof *module->symbols;
    target->symbol_bytes += bytes + dynamic->string_bytes;
    if (!dynamic->symbols || !dynamic->strings || target->symbol_bytes > MOST_BYTES)
        return !count || note_many(target, module->path);
    module->count = count;
    module->string_bytes = dynamic->string_bytes;
    module->symbols = malloc(bytes + 1);
    module->strings = malloc(module->string_bytes + 1);
    if (!module->symbols || !module->strings)
        fail("no memory for symbols");
    module->strings[module->string_bytes] = 0;
    return get_or_note(target, dynamic->symbols, module->symbols, bytes)
        && get_or_note(target, dynamic->strings, module->strings, module->string_bytes);
}

/* Reads the symbols of a file, if it has any, and gives whether they could be read. */
bool read_tables(struct target *target, struct module *module, const Elf64_Phdr *header)
{
    struct dynamic tables = { 0 };

    return !header->p_type || (read_dynamic(target, module, header, &tables) && read_symbols(target, module, &tables));
}

/* The function's address, or 0. */
uint64_t find_symbol(const struct module *module, const char *name, uint64_t *size)
{
    for (size_t i = 0; i < module->count; i++) {
        const Elf64_Sym *s = module->symbols + i;
        if (s->st_shndx && s->st_name < module->string_bytes && ELF64_ST_TYPE(s->st_info) == STT_FUNC
            && !strcmp(module->strings + s->st_name, name)) {
            *size = s->st_size;
            return module->bias + s->st_value;
        }
    }
    return 0;
}
