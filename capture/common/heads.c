/* The headers of mapped ELF files and their build-ids, as the process had them in its memory: a core has the first page of each
 * (core(5), coredump_filter). The file of that name may be another one by now, or of another machine. */
#include <string.h>

#include "common.h"

/* gABI, Note Section, with GNU's build-id in it, which linkers make of 8 to 32 bytes. A file has some ten program headers. */
enum { BUILD_ID_NOTE = 3, MOST_ID = 64, MOST_NOTE_BYTES = PAGE, MOST_HEADERS = 128 };

static uint64_t page_of(uint64_t address)
{
    return address & -(uint64_t)PAGE;
}

static Elf64_Phdr program_header(struct memory head, int number)
{
    Elf64_Ehdr header;
    Elf64_Phdr p;

    memcpy(&header, head.at, sizeof header);
    memcpy(&p, head.at + header.e_phoff + number * sizeof p, sizeof p);
    return p;
}

static int program_headers(struct memory head)
{
    Elf64_Ehdr header;

    memcpy(&header, head.at, sizeof header);
    return header.e_phnum;
}

/* The memory, if it begins as an ELF file does, with all program headers, or none. */
struct memory head_of_file(struct memory memory)
{
    static const struct memory none = { NULL, 0 };
    Elf64_Ehdr header;

    if (!memory.at || memory.size < sizeof header)
        return none;
    memcpy(&header, memory.at, sizeof header);
    if (memcmp(header.e_ident, ELFMAG, SELFMAG) || header.e_ident[EI_CLASS] != ELFCLASS64
        || header.e_ident[EI_DATA] != ELFDATA2LSB || header.e_phentsize != sizeof(Elf64_Phdr)
        || header.e_phnum > MOST_HEADERS || header.e_phoff > memory.size || header.e_phnum > (memory.size - header.e_phoff) / sizeof(Elf64_Phdr))
        return none;
    return memory;
}

/* Whether a segment puts this page of the file at this page of the file's addresses. */
static int is_at(const Elf64_Phdr *p, uint64_t offset, uint64_t address)
{
    uint64_t into = offset - page_of(p->p_offset);

    return p->p_type == PT_LOAD && p->p_filesz && offset >= page_of(p->p_offset) && offset < p->p_offset + p->p_filesz
        && page_of(p->p_vaddr) + into == address;
}

/* Whether the file whose headers begin the first part has this part too, as its program headers say: its first page and its last
 * one. Sets what must be added to an address for that in the file. */
int is_laid_out(const struct part *first, const struct part *part, uint64_t *bias)
{
    uint64_t last = page_of(part->end - 1 - part->start), base = 0;
    int has_base = 0, begins = 0, ends = 0, count = program_headers(first->head);

    for (int i = 0; i < count; i++) {
        Elf64_Phdr p = program_header(first->head, i);
        if (!has_base && p.p_type == PT_LOAD) {
            if (page_of(p.p_offset))
                return 0;
            base = page_of(p.p_vaddr) - first->start;
            has_base = 1;
        }
        begins |= is_at(&p, part->offset, part->start + base);
        ends |= is_at(&p, part->offset + last, part->start + last + base);
    }
    if (!has_base || !begins || !ends)
        return 0;
    *bias = base;
    return 1;
}

/* The GNU build-id among these notes, or none. */
static struct memory build_id_in(struct memory notes)
{
    const uint8_t *at = notes.at, *end = at + (notes.size < MOST_NOTE_BYTES ? notes.size : MOST_NOTE_BYTES);
    struct note note;

    while (next_note(&at, end, &note))
        if (is_note(&note, BUILD_ID_NOTE, "GNU") && note.size && note.size <= MOST_ID)
            return (struct memory){ note.bytes, note.size };
    return (struct memory){ NULL, 0 };
}

/* The build-id of the file that begins with these bytes, and whether all its notes were there. No more of them are looked at than
 * a page has. */
static struct memory build_id_of(struct memory head, int *is_known)
{
    struct memory id = { NULL, 0 };
    uint64_t looked_at = 0;

    *is_known = 1;
    for (int i = 0, count = program_headers(head); i < count && !id.at; i++) {
        Elf64_Phdr p = program_header(head, i);
        if (p.p_type != PT_NOTE)
            continue;
        if (p.p_offset > head.size || p.p_filesz > head.size - p.p_offset || looked_at + p.p_filesz > MOST_NOTE_BYTES) {
            *is_known = 0;
            continue;
        }
        id = build_id_in((struct memory){ head.at + p.p_offset, p.p_filesz });
        looked_at += p.p_filesz;
    }
    return id;
}

static void put_id(struct memory id, int is_known)
{
    static const char digits[] = "0123456789abcdef";

    if (!id.at)
        put_text(is_known ? "-" : "?");
    for (uint64_t i = 0; i < id.size; i++)
        put_bytes((const uint8_t[]){ digits[id.at[i] >> 4], digits[id.at[i] & 15] }, 2);
}

static int are_same(struct memory a, struct memory b)
{
    return a.size == b.size && (!a.size || !memcmp(a.at, b.at, a.size));
}

/* Whether the files that begin so have the same build-id. Of files without one that can't be told. */
int is_same_build(struct memory head, struct memory other)
{
    int is_known;
    struct memory id = build_id_of(head, &is_known);

    return id.size && are_same(id, build_id_of(other, &is_known));
}

/* Writes remarks of the log: that files are told, and of each ELF file its build-id, or - if it has none, or
 * ? if the core lacks its notes, and its path. Of one that has none also its size and its time. */
void put_files(const struct parts *parts)
{
    const char *path = NULL;
    struct memory before = { NULL, 0 };
    int is_known = 1;

    put_text("= leak_log files\n");
    if (!parts->count)
        return;
    for (const struct part *part = parts->list; part < parts->list + parts->count; part++) {
        struct memory id = part->head.at ? build_id_of(part->head, &is_known) : before;
        if (!part->head.at || (path && !strcmp(path, part->path) && are_same(id, before)))
            continue;
        put_text("= leak_log file ");
        put_id(id, is_known);
        put_text(" ");
        put_text(part->path);
        put_text("\n");
        if (!id.at && is_known && part->written.seconds)
            put_written(part);
        path = part->path, before = id;
    }
}
