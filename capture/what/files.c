/* The ELF files that the process had mapped: a file that is there now counts if it has the build-id that the process
 * has in memory (gABI, Section Header). It is looked for below the given roots, and then here. */
#define _GNU_SOURCE
#include <fcntl.h>
#include <linux/openat2.h>
#include <stdlib.h>
#include <sys/syscall.h>
#include <unistd.h>

#include "what.h"

enum { MOST_SECTIONS = 1 << 16, MOST_NOTE = 1 << 16, GNU_BUILD_ID = 3 };

static const char deleted[] = " (deleted)"; /* proc(5): the name is gone, or is another file's */

/* Opens the path as a place: below the root, as a process that has it as its root would, or here. */
static int open_place(const char *root, const char *path)
{
    struct open_how how = { .flags = O_PATH | O_CLOEXEC, .resolve = RESOLVE_IN_ROOT | RESOLVE_NO_MAGICLINKS };
    int folder, place;

    if (!root)
        return open(path, O_PATH | O_CLOEXEC);
    folder = open(root, O_PATH | O_DIRECTORY | O_CLOEXEC);
    if (folder < 0)
        return -1;
    place = syscall(SYS_openat2, folder, path, &how, sizeof how);
    close(folder);
    return place;
}

/* Bytes of the file and a 0 after them, or NULL. */
char *part_of_file(int file, uint64_t at, uint64_t size, uint64_t most)
{
    char *bytes = size && size <= most && at <= INT64_MAX - size ? malloc(size + 1) : NULL;

    if (bytes && pread(file, bytes, size, at) != (ssize_t)size) {
        free(bytes);
        return NULL;
    }
    if (bytes)
        bytes[size] = 0;
    return bytes;
}

/* Reads the section headers. If there are too many for the file's header, the first one has both numbers. */
static void read_sections(struct elf *elf)
{
    Elf64_Ehdr header;
    Elf64_Shdr first;

    if (pread(elf->file, &header, sizeof header, 0) != sizeof header || memcmp(header.e_ident, ELFMAG, SELFMAG)
        || header.e_ident[EI_CLASS] != ELFCLASS64 || header.e_shentsize != sizeof first || !header.e_shoff
        || header.e_shoff > INT64_MAX || pread(elf->file, &first, sizeof first, header.e_shoff) != sizeof first)
        return;
    elf->count = header.e_shnum ? header.e_shnum : first.sh_size;
    elf->names = header.e_shstrndx == SHN_XINDEX ? first.sh_link : header.e_shstrndx;
    if (elf->count <= MOST_SECTIONS)
        elf->sections = (void *)part_of_file(elf->file, header.e_shoff, elf->count * sizeof first, MOST_TABLE);
    if (!elf->sections)
        elf->count = 0;
}

/* Whether a section of notes has the module's build-id. */
static int has_id(const struct elf *elf, const struct module *module)
{
    int found = 0;

    for (uint64_t i = 0; i < elf->count && !found; i++) {
        const Elf64_Shdr *s = elf->sections + i;
        char *bytes = s->sh_type == SHT_NOTE ? part_of_file(elf->file, s->sh_offset, s->sh_size, MOST_NOTE) : NULL;
        const uint8_t *at = (const uint8_t *)bytes;
        struct note note;
        while (bytes && !found && next_note(&at, (const uint8_t *)bytes + s->sh_size, &note))
            found = is_note(&note, GNU_BUILD_ID, "GNU") && note.size == module->id_size
                && !memcmp(note.bytes, module->id, note.size);
        free(bytes);
    }
    return found;
}

void close_elf(struct elf *elf)
{
    free(elf->sections);
    if (elf->file >= 0)
        close(elf->file);
    *elf = (struct elf){ .file = -1 };
}

/* Opens the file, reads its sections, and closes it again if it is another build's. */
static struct elf open_build(const char *root, const char *path, const struct module *module)
{
    struct elf elf = { .file = reopen_regular(open_place(root, path)) };

    if (elf.file >= 0)
        read_sections(&elf);
    if (!has_id(&elf, module))
        close_elf(&elf);
    return elf;
}

static struct elf open_any(const struct modules *modules, const char *path, const struct module *module)
{
    struct elf elf = { .file = -1 };

    for (size_t i = 0; i <= modules->root_count && elf.file < 0; i++)
        elf = open_build(i < modules->root_count ? modules->roots[i] : NULL, path, module);
    return elf;
}

/* The mapped file, open; one whose name is gone may be back. */
struct elf open_elf(const struct modules *modules, const struct module *module)
{
    size_t length = strlen(module->path), end = sizeof deleted - 1;
    struct elf elf = open_any(modules, module->path, module);
    char *path;

    if (elf.file >= 0 || length <= end || strcmp(module->path + length - end, deleted))
        return elf;
    path = strndup(module->path, length - end);
    if (path)
        elf = open_any(modules, path, module);
    free(path);
    return elf;
}

/* The section of this name that the file itself has, or NULL. */
static const Elf64_Shdr *section_named(const struct elf *elf, const char *wanted)
{
    const Elf64_Shdr *table = elf->names < elf->count ? elf->sections + elf->names : NULL, *found = NULL;
    char *names = table ? part_of_file(elf->file, table->sh_offset, table->sh_size, MOST_NAMES) : NULL;

    for (const Elf64_Shdr *s = elf->sections; names && !found && s < elf->sections + elf->count; s++)
        if (s->sh_type != SHT_NOBITS && s->sh_name < table->sh_size && !strcmp(names + s->sh_name, wanted))
            found = s;
    free(names);
    return found;
}

int has_section(const struct elf *elf, const char *wanted)
{
    return section_named(elf, wanted) != NULL;
}

/* The debug file that the file names (.gnu_debuglink), in the folders in which gdb looks for it. It counts by its
 * build-id, as all files do. */
static struct elf open_linked(const struct modules *modules, const struct module *module, const char *name)
{
    static const char *const places[] = { "%.*s/%s", "%.*s/.debug/%s", "/usr/lib/debug%.*s/%s" };
    const char *slash = strrchr(module->path, '/');
    struct elf found = { .file = -1 };
    char path[2 * PAGE];

    for (size_t i = 0; i < sizeof places / sizeof *places && found.file < 0; i++) {
        int folder = slash ? slash - module->path : 0;
        int length = snprintf(path, sizeof path, places[i], folder, module->path, name);
        if (length < (int)sizeof path)
            found = open_any(modules, path, module);
    }
    return found;
}

static struct elf open_named(const struct modules *modules, const struct module *module)
{
    struct elf elf = open_elf(modules, module), found = { .file = -1 };
    const Elf64_Shdr *s = section_named(&elf, ".gnu_debuglink");
    char *name = s ? part_of_file(elf.file, s->sh_offset, s->sh_size, PAGE) : NULL;

    if (name && *name && !strchr(name, '/'))
        found = open_linked(modules, module, name);
    free(name);
    close_elf(&elf);
    return found;
}

/* The debug file of the build-id, where Debian's gdb and binutils look for it, or the one that the file names. */
struct elf open_debug_file(const struct modules *modules, const struct module *module)
{
    char path[64 + 2 * MOST_ID] = "/usr/lib/debug/.build-id/", *end = path + strlen(path);
    struct elf found;

    for (uint32_t i = 0; i < module->id_size; i++)
        end += sprintf(end, i == 1 ? "/%02x" : "%02x", module->id[i]);
    strcpy(end, ".debug");
    found = open_any(modules, path, module);
    return found.file < 0 ? open_named(modules, module) : found;
}
