/* The headers and the notes of a core file (gABI, ELF Header, Program Header, Note Section; elf(5)). */
#include <stdlib.h>
#include <string.h>

#include "common.h"

static int has(struct file file, uint64_t at, uint64_t size)
{
    return at <= file.size && size <= file.size - at;
}

/* How many there are: by the first section header if they are too many for the file's header (gABI, extended numbering). */
static uint64_t count_of(struct file core, const Elf64_Ehdr *header)
{
    Elf64_Shdr section;

    if (header->e_phnum != PN_XNUM)
        return header->e_phnum;
    if (!has(core, header->e_shoff, sizeof section))
        fail("%s: the core is cut off", core.path);
    memcpy(&section, core.bytes + header->e_shoff, sizeof section);
    return section.sh_info;
}

struct extent {
    uint64_t start, end;        /* in the file */
};

static void refuse_overlap(struct file core, struct extent *notes, size_t count)
{
    if (count)
        qsort(notes, count, sizeof *notes, by_start);
    for (size_t i = 1; i < count; i++)
        if (notes[i].start < notes[i - 1].end)
            fail("%s: damaged: parts of its notes overlap", core.path);
    free(notes);
}

/* Any number of headers may name the same bytes, so a small core could stand for any amount of memory and notes. In a right one the
 * parts lie one after the other. */
static void check_parts(struct file core, struct headers headers)
{
    struct extent *notes = NULL;
    size_t count = 0;
    uint64_t left = core.size;

    for (uint64_t i = 0; i < headers.count; i++) {
        Elf64_Phdr p = header_at(core, headers, i);
        if ((p.p_type != PT_LOAD && p.p_type != PT_NOTE) || !p.p_filesz)
            continue;
        if (p.p_filesz > left)
            fail("%s: damaged: its parts are larger than the file", core.path);
        left -= p.p_filesz;
        if (p.p_type == PT_NOTE) {
            notes = grown(notes, count, sizeof *notes);
            notes[count++] = (struct extent){ p.p_offset, p.p_offset + p.p_filesz };
        }
    }
    refuse_overlap(core, notes, count);
}

struct headers headers_of(struct file core)
{
    Elf64_Ehdr header;
    struct headers headers;
    uint64_t count;

    if (core.size >= sizeof header)
        memcpy(&header, core.bytes, sizeof header);
    if (core.size < sizeof header || memcmp(header.e_ident, ELFMAG, SELFMAG) || header.e_ident[EI_CLASS] != ELFCLASS64
        || header.e_ident[EI_DATA] != ELFDATA2LSB || header.e_type != ET_CORE || header.e_machine != EM_X86_64
        || header.e_phentsize != sizeof(Elf64_Phdr))
        fail("%s: not a core file of x86-64", core.path);
    count = count_of(core, &header);
    if (!has(core, header.e_phoff, count * sizeof(Elf64_Phdr)))
        fail("%s: the core is cut off", core.path);
    headers = (struct headers){ core.bytes + header.e_phoff, count };
    check_parts(core, headers);
    return headers;
}

/* A header, of which the file has what it says if that is asked for: memory and notes. */
Elf64_Phdr header_at(struct file core, struct headers headers, uint64_t number)
{
    Elf64_Phdr p;

    memcpy(&p, headers.first + number * sizeof p, sizeof p);
    if ((p.p_type == PT_LOAD || p.p_type == PT_NOTE) && p.p_filesz && !has(core, p.p_offset, p.p_filesz))
        fail("%s: the core is cut off", core.path);
    return p;
}

/* Reads the note at `*at`, and goes on after it. Gives 0 if there is none. */
int next_note(const uint8_t **at, const uint8_t *end, struct note *note)
{
    Elf64_Nhdr head;
    uint64_t left = end - *at, content;

    if (left < sizeof head)
        return 0;
    memcpy(&head, *at, sizeof head);
    content = sizeof head + ((head.n_namesz + 3ull) & ~3ull);
    if (content > left || head.n_descsz > left - content)
        return 0;
    *note = (struct note){ head.n_type, (const char *)*at + sizeof head, head.n_namesz, *at + content, head.n_descsz };
    content += (head.n_descsz + 3ull) & ~3ull;
    *at += content < left ? content : left;
    return 1;
}

int is_note(const struct note *note, uint32_t type, const char *name)
{
    return note->type == type && note->name_size == strlen(name) + 1 && !memcmp(note->name, name, note->name_size);
}
