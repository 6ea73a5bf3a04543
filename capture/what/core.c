/* A core file: its memory, its threads' registers and its mapped files (gABI, Program Header; Linux, elf(5)). */
#include <stdlib.h>
#include <sys/mman.h>

#include "what.h"

enum { REGISTERS_AT = 112 };    /* Linux, struct elf_prstatus: pr_reg */

static void add_thread(struct core *core, const struct note *note)
{
    if (note->size < REGISTERS_AT + sizeof(struct thread))
        return;
    core->threads = grown(core->threads, core->thread_count, sizeof *core->threads);
    memcpy(core->threads + core->thread_count++, note->bytes + REGISTERS_AT, sizeof *core->threads);
}

static void read_notes(struct core *core, const uint8_t *at, const uint8_t *end)
{
    struct note note;

    while (next_note(&at, end, &note)) {
        if (is_note(&note, NT_FILE, "CORE"))
            add_parts(&core->parts, &note);
        if (is_note(&note, NT_PRSTATUS, "CORE"))
            add_thread(core, &note);
    }
}

static void add_segment(struct core *core, const Elf64_Phdr *p)
{
    uint64_t size = p->p_filesz < p->p_memsz ? p->p_filesz : p->p_memsz;

    if (!size || size > UINT64_MAX - p->p_vaddr)
        return;
    core->segments = grown(core->segments, core->segment_count, sizeof *core->segments);
    core->segments[core->segment_count++] = (struct segment){
        .start = p->p_vaddr, .end = p->p_vaddr + size, .bytes = core->file.bytes + p->p_offset,
        .is_writable = (p->p_flags & PF_W) != 0, .is_code = (p->p_flags & PF_X) != 0 };
}

static void check_segments(const struct core *core)
{
    for (size_t i = 1; i < core->segment_count; i++)
        if (core->segments[i].start < core->segments[i - 1].end)
            fail("%s: segments overlap at 0x%llx", core->file.path, (unsigned long long)core->segments[i].start);
}

static void mark_stacks(struct core *core)
{
    for (size_t i = 0; i < core->thread_count; i++) {
        const struct segment *s = segment_at(core, core->threads[i].words[STACK_POINTER]);
        if (s)
            core->segments[s - core->segments].is_stack = 1;
    }
}

struct core read_core(const char *path)
{
    struct core core = { .file = map_file(path) };
    struct headers headers = headers_of(core.file);

    for (uint64_t i = 0; i < headers.count; i++) {
        Elf64_Phdr p = header_at(core.file, headers, i);
        if (p.p_type == PT_NOTE && p.p_filesz)
            read_notes(&core, core.file.bytes + p.p_offset, core.file.bytes + p.p_offset + p.p_filesz);
        if (p.p_type == PT_LOAD)
            add_segment(&core, &p);
    }
    if (core.segment_count)
        qsort(core.segments, core.segment_count, sizeof *core.segments, by_start);
    check_segments(&core);
    if (core.parts.count)
        qsort(core.parts.list, core.parts.count, sizeof *core.parts.list, by_start);
    mark_stacks(&core);
    return core;
}

/* The first segment that ends after the address, or the end of the list. */
static const struct segment *first_behind(const struct core *core, uint64_t address)
{
    size_t low = 0, high = core->segment_count;

    while (low < high) {
        size_t middle = low + (high - low) / 2;
        if (core->segments[middle].end <= address)
            low = middle + 1;
        else
            high = middle;
    }
    return core->segments + low;
}

/* The segment that has the address, or NULL. */
const struct segment *segment_at(struct core *core, uint64_t address)
{
    const struct segment *s = core->near;

    if (!s || address < s->start || address >= s->end)
        s = first_behind(core, address);
    if (s == core->segments + core->segment_count || s->start > address)
        return NULL;
    return core->near = s;
}

/* The file's pages count as the program's memory while they are mapped in, so now and then all are let go. */
static void count_touched(struct core *core, uint64_t size)
{
    enum { MOST_TOUCHED = 64 << 20 };

    core->touched += size < PAGE ? PAGE : size;
    if (core->touched < MOST_TOUCHED)
        return;
    madvise((void *)core->file.bytes, core->file.size, MADV_DONTNEED);
    core->touched = 0;
}

/* The bytes at the address, or NULL. `*size` becomes smaller if the core has fewer in a row. */
const uint8_t *run_at(struct core *core, uint64_t address, uint64_t *size)
{
    const struct segment *s = segment_at(core, address);

    if (!s)
        return NULL;
    if (*size > s->end - address)
        *size = s->end - address;
    count_touched(core, *size);
    return s->bytes + (address - s->start);
}

/* Goes on to the next bytes that the core has. */
static int next_run(struct reader *reader)
{
    enum { MOST_RUN = 1 << 20 };
    const struct segment *s = first_behind(reader->core, reader->at);
    uint64_t size;

    if (s == reader->core->segments + reader->core->segment_count)
        return 0;
    if (reader->at < s->start)
        reader->at = (s->start + WORD - 1) & -(uint64_t)WORD;
    if (reader->at >= reader->end)
        return 0;
    size = reader->end - reader->at < MOST_RUN ? reader->end - reader->at : MOST_RUN;
    reader->bytes = run_at(reader->core, reader->at, &size);
    reader->left = reader->bytes ? size / WORD : 0;
    if (!reader->left)          /* less than a word, before the next segment or the end */
        reader->at = reader->bytes ? reader->at + WORD : reader->end;
    return 1;
}

/* Reads the next word, and where it is. Gives 0 after the last. */
int next_word(struct reader *reader, uint64_t *place, uint64_t *value)
{
    while (!reader->left)
        if (reader->at >= reader->end || !next_run(reader))
            return 0;
    memcpy(value, reader->bytes, WORD);
    *place = reader->at;
    reader->bytes += WORD;
    reader->at += WORD;
    reader->left--;
    return 1;
}

int word_at(struct core *core, uint64_t address, uint64_t *value)
{
    uint64_t size = WORD;
    const uint8_t *bytes = run_at(core, address, &size);

    if (!bytes || size < WORD)
        return 0;
    memcpy(value, bytes, WORD);
    return 1;
}
