/* A core file: its segments, and where files were mapped (gABI, Program Header; Linux, NT_FILE). */
#include <stdlib.h>
#include <sys/procfs.h>

#include "log.h"

enum { MEMORY_NOTE = 0x4d454d };    /* by leak_core */

/* The numbers of threads and process (Linux, struct elf_prstatus, struct elf_prpsinfo). */
static void read_ids(struct ids *ids, const struct note *note)
{
    struct elf_prstatus status;
    struct elf_prpsinfo about;

    if (is_note(note, NT_PRSTATUS, "CORE") && note->size >= sizeof status) {
        memcpy(&status, note->bytes, sizeof status);
        ids->list = grown(ids->list, ids->count, sizeof *ids->list);
        ids->list[ids->count++] = status.pr_pid;
    }
    if (is_note(note, NT_PRPSINFO, "CORE") && note->size >= sizeof about) {
        memcpy(&about, note->bytes, sizeof about);
        ids->process = about.pr_pid;
    }
}

static void read_notes(struct core *core, const uint8_t *at, const uint8_t *end)
{
    struct note note;

    while (next_note(&at, end, &note)) {
        if (is_note(&note, NT_FILE, "CORE"))
            add_parts(&core->parts, &note);
        if (is_note(&note, NT_AUXV, "CORE"))
            read_start(&core->start, &note);
        core->is_whole |= is_note(&note, MEMORY_NOTE, "LEAK_CORE");
        read_signal_stacks(&core->stacks, &note);
        read_written(&core->parts, &note);
        read_ids(&core->ids, &note);
    }
}

static struct contents contents_of(struct file file, struct headers headers)
{
    struct contents contents = { file, NULL, 0 };

    for (uint64_t i = 0; i < headers.count; i++) {
        Elf64_Phdr p = header_at(file, headers, i);
        if (p.p_type != PT_LOAD || !p.p_filesz || p.p_vaddr + p.p_filesz < p.p_vaddr)
            continue;
        contents.list = grown(contents.list, contents.count, sizeof *contents.list);
        contents.list[contents.count++] = (struct content){ p.p_vaddr, p.p_filesz, p.p_offset };
    }
    if (contents.count)
        qsort(contents.list, contents.count, sizeof *contents.list, by_start);
    return contents;
}

/* What the core has from the address on, by the last segment that begins there or before. */
static struct memory dumped_at(void *core, uint64_t address)
{
    const struct contents *contents = core;
    size_t low = 0, high = contents->count;

    while (low < high) {
        size_t middle = low + (high - low) / 2;
        if (contents->list[middle].start <= address)
            low = middle + 1;
        else
            high = middle;
    }
    const struct content *c = contents->list + low - 1;
    if (!low || address - c->start >= c->size)
        return (struct memory){ NULL, 0 };
    return (struct memory){ contents->file.bytes + c->place + (address - c->start), c->size - (address - c->start) };
}

struct core read_core(const char *path)
{
    struct core core = { .file = map_file(path) };

    core.headers = headers_of(core.file);
    for (uint64_t i = 0; i < core.headers.count; i++) {
        Elf64_Phdr p = header_at(core.file, core.headers, i);
        if (p.p_type == PT_NOTE && p.p_filesz)
            read_notes(&core, core.file.bytes + p.p_offset, core.file.bytes + p.p_offset + p.p_filesz);
    }
    if (!core.parts.count)
        fail("%s: no list of mapped files (NT_FILE)", path);
    core.contents = contents_of(core.file, core.headers);
    sort_parts(&core.parts, dumped_at, &core.contents);
    return core;
}

static const struct table_head *own_head;

static int is_own(uint64_t address)
{
    for (size_t i = 0; i < own_head->own_count && i < MOST_OWN; i++)
        if (address - own_head->own[i].start < own_head->own[i].bytes)
            return 1;
    return 0;
}

/* Says of how much writable memory the core has no contents, and how much of that is the library's own, in
 * which no block of the program is led to. A kernel's core lists such memory, leak_core's does not. Says then whose the rest is. */
void tell_undumped(const struct core *core, const struct table_head *head)
{
    uint64_t all = 0, own = 0;

    own_head = head;
    for (uint64_t i = 0; i < core->headers.count; i++) {
        Elf64_Phdr p = header_at(core->file, core->headers, i);
        if (p.p_type != PT_LOAD || !(p.p_flags & PF_W))
            continue;
        all += p.p_memsz - p.p_filesz;
        if (!p.p_filesz && is_own(p.p_vaddr))
            own += p.p_memsz;
    }
    if (own)
        warn("undumped: of %llu bytes %llu are leak_trace's own, and hold none of the program's pointers; %llu are the program's",
             (unsigned long long)all, (unsigned long long)own, (unsigned long long)(all - own));
    tell_undumped_files(core->file, &core->parts, core->is_whole, is_own);
}

/* The bytes from `start` to `end` of which the core has no contents, if no two segments overlap. */
static uint64_t missing_between(const struct core *core, uint64_t start, uint64_t end)
{
    uint64_t missing = end - start;

    for (uint64_t i = 0; i < core->headers.count; i++) {
        Elf64_Phdr p = header_at(core->file, core->headers, i);
        uint64_t from = p.p_vaddr > start ? p.p_vaddr : start;
        uint64_t to = p.p_vaddr + p.p_filesz < end ? p.p_vaddr + p.p_filesz : end;
        if (p.p_type == PT_LOAD && from < to)
            missing -= to - from;
    }
    return missing;
}

/* How much of the memory that the program keeps out of cores (MADV_DONTDUMP) is not in this one. By gdb such memory is in no
 * segment at all, so nothing in the core tells of it. leak_core has it. */
uint64_t kept_out_bytes(const struct core *core, const struct table_head *head)
{
    uint64_t bytes = 0;

    for (size_t i = 0; i < MOST_KEPT_OUT && !core->is_whole; i++)
        if (head->kept_out[i].start)
            bytes += missing_between(core, head->kept_out[i].start, head->kept_out[i].start + head->kept_out[i].bytes);
    return bytes;
}
