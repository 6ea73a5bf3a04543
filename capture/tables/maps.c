/* What /proc tells of a process (proc(5)). */
#define _GNU_SOURCE
#include <inttypes.h>
#include <stdlib.h>
#include <string.h>

#include "tables.h"

static FILE *open_file(pid_t process, const char *name)
{
    char path[64];

    snprintf(path, sizeof path, "/proc/%d/%s", process, name);
    return fopen(path, "re");
}

FILE *open_maps(pid_t process)
{
    return open_file(process, "maps");
}

/* Reads on to the next line of shared memory that can be written. 0 at the end, and -1 if it may not be read. */
int next_shared(FILE *maps, char **line, size_t *room, struct shared *shared)
{
    char rights[5];
    int path;

    while (getline(line, room, maps) > 0) {
        path = 0;
        (*line)[strcspn(*line, "\n")] = 0;
        if (sscanf(*line, "%" SCNx64 "-%" SCNx64 " %4s %" SCNx64 " %*s %" SCNu64 " %n", &shared->start, &shared->end, rights,
                   &shared->offset, &shared->inode, &path) < 5 || rights[1] != 'w' || rights[3] != 's')
            continue;
        shared->path = path ? *line + path : "";
        return 1;
    }
    return ferror(maps) ? -1 : 0;
}

/* Whether the process has the file mapped: by its number in the file system, or by its path, since some file systems number twice. -1 if
 * that may not be looked at. */
int has_mapped(pid_t process, const struct table *table)
{
    FILE *maps = open_maps(process);
    struct shared shared;
    char *line = NULL;
    size_t room = 0;
    int found = maps ? 1 : -1;

    while (found > 0 && (found = next_shared(maps, &line, &room, &shared)) > 0)
        if (shared.inode == table->about.st_ino || !strcmp(shared.path, table->path))
            break;
    free(line);
    if (maps)
        fclose(maps);
    return found;
}

/* The word after the key in /proc/PID/status, the last of its line if `is_last`. */
static int status_word(pid_t process, const char *key, int is_last, char word[32])
{
    FILE *file = open_file(process, "status");
    char line[512], *at;
    int found = 0;

    while (file && !found && fgets(line, sizeof line, file))
        if (!strncmp(line, key, strlen(key))) {
            line[strcspn(line, "\n")] = 0;
            at = is_last ? strrchr(line, '\t') : strchr(line, '\t');
            found = at && sscanf(at, "%31s", word) == 1;
        }
    if (file)
        fclose(file);
    return found;
}

/* Is it there, and neither dead nor waited for? */
int is_alive(pid_t process)
{
    char state[32];

    return status_word(process, "State:", 0, state) && *state != 'Z' && *state != 'X';
}

/* Its number as it sees itself. */
pid_t inner_number(pid_t process)
{
    char number[32];

    return status_word(process, "NSpid:", 1, number) ? atoi(number) : 0;
}

/* When it started, the 22nd field of its line, after the name, which may have blanks. */
uint64_t started(pid_t process)
{
    FILE *file = open_file(process, "stat");
    char line[1024], *at = NULL;
    int fields = 1;

    if (file && fgets(line, sizeof line, file))
        at = strrchr(line, ')');
    if (file)
        fclose(file);
    for (; at && fields < 21; fields++)
        at = strchr(at + 1, ' ');
    return at ? strtoull(at, NULL, 10) : 0;
}

/* Its namespace of process numbers, or 0 where that may not be looked at. */
uint64_t namespace_of(pid_t process)
{
    struct stat about;
    char path[64];

    snprintf(path, sizeof path, "/proc/%d/ns/pid", process);
    return stat(path, &about) ? 0 : about.st_ino;
}

int process_name(pid_t process, char name[16])
{
    FILE *file = open_file(process, "comm");
    int found = file && fgets(name, 16, file);

    if (found)
        name[strcspn(name, "\n")] = 0;
    if (file)
        fclose(file);
    return found;
}
