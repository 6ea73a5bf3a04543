/* The table that a process writes: the file that it has mapped for writing where its head says, and in which it is by its number. */
#define _GNU_SOURCE
#include <fcntl.h>
#include <limits.h>
#include <stdlib.h>
#include <unistd.h>

#include "tables.h"

/* Does the path, from the root of the process or from ours, lead to the file of the mapping? */
static int leads_to(const char *path, const struct shared *shared, struct stat *about)
{
    int file = open_table(path, about);

    if (file >= 0)
        close(file);
    return file >= 0 && about->st_ino == shared->inode;
}

/* How the file of a mapping can be opened: by the mapping itself, which needs rights, or by a path. 0 if none leads to it. */
static int find_way(pid_t process, const struct shared *shared, char way[PATH_MAX], struct stat *about)
{
    snprintf(way, PATH_MAX, "/proc/%d/map_files/%llx-%llx", process, (unsigned long long)shared->start, (unsigned long long)shared->end);
    if (!stat(way, about))
        return S_ISREG(about->st_mode);
    if (*shared->path != '/')
        return 0;
    snprintf(way, PATH_MAX, "/proc/%d/root%s", process, shared->path);
    if (leads_to(way, shared, about))
        return 1;
    snprintf(way, PATH_MAX, "%s", shared->path);
    return leads_to(way, shared, about);
}

static struct table_head *head_by(const char *way)
{
    int file = open(way, O_RDONLY | O_NONBLOCK | O_CLOEXEC);
    struct table_head *head = file < 0 ? NULL : read_head(file);

    if (file >= 0)
        close(file);
    return head;
}

/* Prints whose table it is, its path, how to open it, and what it takes of the disk. */
static void tell(const char *whose, const struct shared *shared, const char *way, const struct stat *about)
{
    puts(whose);
    print_escaped(stdout, shared->path);
    printf("\n%s\n%llu\n", way, (unsigned long long)about->st_blocks * 512);
}

/* Whose the table is that is mapped there: 0 if none. */
static int is_table(pid_t process, const struct shared *shared)
{
    struct stat about;
    char way[PATH_MAX];
    struct table_head *head = !shared->offset && find_way(process, shared, way, &about) ? head_by(way) : NULL;
    int found = head && head->base == shared->start;

    if (found)
        tell((pid_t)head->pid == inner_number(process) ? "own" : "other", shared, way, &about);
    free(head);
    return found;
}

/* A child of a bare clone has its parent's table mapped, and none of its own. */
int tell_own(pid_t process)
{
    FILE *maps = open_maps(process);
    struct shared shared;
    char *line = NULL;
    size_t room = 0;
    int found = 0;

    while (maps && !found && next_shared(maps, &line, &room, &shared) > 0)
        found = is_table(process, &shared);
    free(line);
    if (maps)
        fclose(maps);
    return fflush(stdout) ? 2 : !found;
}
