/* The ELF files that the process had mapped: where they are, and which build-id they have in its memory. */
#include <stdlib.h>

#include "what.h"

enum { MOST_MODULE = 1 << 30, GNU_BUILD_ID = 3, MOST_NOTES = 1 << 16, MOST_READ = 128 << 20 };

/* Whether the name is that of a C library or of its loader: glibc's and musl's. */
static int is_libc(const char *name)
{
    const char *end = name + strlen(name);

    return begins(name, end, "libc.so") || begins(name, end, "libc-") || begins(name, end, "libc.musl")
        || begins(name, end, "ld-");
}

/* Whether the name is that of Python or Ruby, or of its library. */
static int is_interpreter(const char *name)
{
    const char *end = name + strlen(name);

    return begins(name, end, "python") || begins(name, end, "libpython") || begins(name, end, "ruby")
        || begins(name, end, "libruby");
}

/* The build-id in these notes (binutils, ld --build-id; elf(5), Notes). */
static void take_id(struct module *module, const uint8_t *at, const uint8_t *end)
{
    struct note note;

    while (!module->id_size && next_note(&at, end, &note))
        if (is_note(&note, GNU_BUILD_ID, "GNU") && note.size && note.size <= MOST_ID) {
            memcpy(module->id, note.bytes, note.size);
            module->id_size = note.size;
        }
}

/* Reads a header of the memory, and gives whether the core has it. */
static int header_in_memory(struct core *core, const struct module *module, uint64_t number, Elf64_Phdr *p)
{
    uint64_t head_size = sizeof(Elf64_Ehdr), size = sizeof *p;
    const uint8_t *bytes = run_at(core, module->start, &head_size);
    Elf64_Ehdr header;

    if (!bytes || head_size < sizeof header)
        return 0;
    memcpy(&header, bytes, sizeof header);
    if (memcmp(header.e_ident, ELFMAG, SELFMAG) || header.e_ident[EI_CLASS] != ELFCLASS64
        || header.e_phentsize != sizeof *p || number >= header.e_phnum || number >= MOST_LOADS
        || header.e_phoff > MOST_MODULE)
        return 0;
    bytes = run_at(core, module->start + header.e_phoff + number * sizeof *p, &size);
    if (!bytes || size < sizeof *p)
        return 0;
    memcpy(p, bytes, sizeof *p);
    return 1;
}

/* Sets the bias and the end, by the segments that the file asks for: the last one goes on without a file (.bss). */
static void measure(struct core *core, struct module *module)
{
    uint64_t low = UINT64_MAX, high = 0;
    Elf64_Phdr p;

    for (uint64_t i = 0; header_in_memory(core, module, i, &p); i++) {
        if (p.p_type != PT_LOAD || p.p_vaddr > (uint64_t)1 << 47 || p.p_memsz > MOST_MODULE)
            continue;
        low = p.p_vaddr < low ? p.p_vaddr : low;
        high = p.p_vaddr + p.p_memsz > high ? p.p_vaddr + p.p_memsz : high;
    }
    if (high <= low || high - low > MOST_MODULE)
        return;
    module->bias = module->start - (low & -(uint64_t)PAGE);
    module->end = (module->bias + high + PAGE - 1) & -(uint64_t)PAGE;
}

static void find_id(struct core *core, struct module *module)
{
    Elf64_Phdr p;

    for (uint64_t i = 0; header_in_memory(core, module, i, &p); i++) {
        uint64_t size = p.p_filesz < MOST_NOTES ? p.p_filesz : MOST_NOTES;
        const uint8_t *bytes = p.p_type == PT_NOTE ? run_at(core, module->bias + p.p_vaddr, &size) : NULL;
        if (bytes)
            take_id(module, bytes, bytes + size);
    }
}

/* Adds the file that begins with this part, up to the part where another begins. Gives how many parts it has. */
static size_t add_module(struct core *core, struct modules *modules, const struct part *part, size_t left)
{
    struct module module = { .path = part->path, .name = name_of(part), .start = part->start, .bias = part->start,
                             .end = part->end };
    uint64_t offset = part->offset;
    size_t count = 1;

    for (; count < left && !strcmp(part[count].path, part->path) && part[count].offset > offset; count++) {
        offset = part[count].offset;
        module.end = part[count].end;
    }
    if (part->offset)
        return count;
    measure(core, &module);
    find_id(core, &module);
    module.is_libc = is_libc(module.name);
    module.is_interpreter = is_interpreter(module.name);
    modules->list = grown(modules->list, modules->count, sizeof *modules->list);
    modules->list[modules->count++] = module;
    return count;
}

/* The mapped ELF files. The memory of one ends where the next one begins. */
struct modules find_modules(struct core *core, char **roots, size_t root_count)
{
    struct modules modules = { .room = MOST_READ, .roots = roots, .root_count = root_count };

    for (size_t i = 0; i < core->parts.count;)
        i += add_module(core, &modules, core->parts.list + i, core->parts.count - i);
    for (size_t i = 1; i < modules.count; i++)
        if (modules.list[i - 1].end > modules.list[i].start)
            modules.list[i - 1].end = modules.list[i].start;
    return modules;
}

/* The number of the file that has the address in its memory, or NONE. */
long module_of(const struct modules *modules, uint64_t address)
{
    size_t low = 0, high = modules->count;

    while (low < high) {
        size_t middle = low + (high - low) / 2;
        if (modules->list[middle].start <= address)
            low = middle + 1;
        else
            high = middle;
    }
    return low && address < modules->list[low - 1].end ? (long)low - 1 : NONE;
}

/* The number of the first file whose name begins so, or NONE. */
long library_of(const struct modules *modules, const char *name)
{
    for (size_t i = 0; i < modules->count; i++)
        if (!strncmp(modules->list[i].name, name, strlen(name)))
            return i;
    return NONE;
}
