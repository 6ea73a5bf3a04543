/* Which programs can't have the library: those of musl's C library, whose loader ends them for it, and those of 32 bits,
 * for which glibc's loader complains. Asked before an exec, maybe in a child of vfork: so nothing here allocates. */
#define _GNU_SOURCE
#include <elf.h>
#include <errno.h>
#include <fcntl.h>
#include <limits.h>
#include <stdio.h>
#include <stdlib.h>
#include <string.h>
#include <sys/stat.h>
#include <unistd.h>

#include "trace.h"

enum { MOST_SCRIPTS = 5, LINE_BYTES = 256 /* Linux, fs/exec.c, fs/binfmt_script.c */, MOST_HEADERS = 64, NAME_BYTES = 64 };

/* The file, if it is a regular one: another one is not run, and to open it might wait. */
static int open_program(int folder, const char *path)
{
    struct stat about;

    if (fstatat(folder, path, &about, *path ? 0 : AT_EMPTY_PATH) || !S_ISREG(about.st_mode))
        return -1;
    return *path ? openat(folder, path, O_RDONLY | O_NONBLOCK | O_CLOEXEC) : fcntl(folder, F_DUPFD_CLOEXEC, 0);
}

/* Is the loader that the file names musl's? */
static int is_of_musl(int file, const Elf64_Ehdr *header)
{
    char name[NAME_BYTES] = "";
    Elf64_Phdr p;

    for (int i = 0; i < header->e_phnum && i < MOST_HEADERS; i++)
        if (pread(file, &p, sizeof p, header->e_phoff + i * sizeof p) == sizeof p && p.p_type == PT_INTERP)
            return pread(file, name, sizeof name - 1, p.p_offset) > 0 && strstr(name, "/ld-musl");
    return 0;
}

/* The program that the first line of a script names, written over the line, or "". */
static const char *script_program(char *line)
{
    char *path = line + 2 + strspn(line + 2, " \t");

    path[strcspn(path, " \t\n")] = 0;
    return path;
}

/* Whether the program can't have the library. If it is a script, writes what runs it into `line`. */
static int refuses(int file, char *line)
{
    Elf64_Ehdr header;
    ssize_t size = pread(file, line, LINE_BYTES - 1, 0);

    line[size < 0 ? 0 : size] = 0;
    if (!strncmp(line, "#!", 2)) {
        memmove(line, script_program(line), strlen(script_program(line)) + 1);
        return 0;
    }
    *line = 0;
    if (pread(file, &header, sizeof header, 0) != sizeof header || memcmp(header.e_ident, ELFMAG, SELFMAG))
        return 0;
    return header.e_ident[EI_CLASS] != ELFCLASS64 || is_of_musl(file, &header);
}

/* Whether the program at this path can't have the library. One that can't be read is not told. */
int refuses_library(int folder, const char *path)
{
    char line[LINE_BYTES];
    int error = errno, is_refused = 0;

    for (int scripts = 0; scripts < MOST_SCRIPTS; scripts++) {
        int file = open_program(folder, path);
        if (file < 0)
            break;
        is_refused = refuses(file, line);
        shut(file);
        if (is_refused || !*line)
            break;
        path = line, folder = AT_FDCWD;
    }
    errno = error;
    return is_refused;
}

/* The same of a program that is looked for in PATH (exec(3)). */
int named_refuses_library(const char *name)
{
    const char *folders = getenv("PATH"), *end;
    char path[PATH_MAX];
    int error = errno;

    if (strchr(name, '/'))
        return refuses_library(AT_FDCWD, name);
    for (folders = folders ? folders : "/bin:/usr/bin";; folders = end + 1) {
        end = strchrnul(folders, ':');
        snprintf(path, sizeof path, "%.*s%s%s", (int)(end - folders), folders, end > folders ? "/" : "", name);
        if (!access(path, X_OK) || !*end)
            break;
    }
    errno = error;
    return refuses_library(AT_FDCWD, path);
}
