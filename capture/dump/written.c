/* Size and time of change of the mapped files, as a note by which a file without a build-id can be known again
 * (docs/FORMAT.md). The time is that of the inode, which must be the one that is mapped. */
#define _GNU_SOURCE
#include <fcntl.h>
#include <stdio.h>
#include <stdlib.h>
#include <sys/stat.h>
#include <sys/sysmacros.h>
#include <unistd.h>

#include "dump.h"

enum { NOTE_TYPE = 0x575254, LONGEST = MOST_PATH + 64 };

struct written {
    uint64_t start, size, seconds, nanoseconds;     /* of the mapping, and of the file */
};

struct reading {
    pid_t witness;
    const struct maps *maps;
    struct written *list;
    size_t count;
};

/* What the kernel has of the file already: no server of a file system is asked. */
static bool stat_now(const char *path, struct statx *about)
{
    return !statx(AT_FDCWD, path, AT_STATX_DONT_SYNC, STATX_BASIC_STATS, about);
}

/* By the mapping itself, as root; else at its path. */
static bool stat_mapped(pid_t witness, const struct mapping *m, struct statx *about)
{
    char path[LONGEST];

    snprintf(path, sizeof path, "/proc/%d/map_files/%llx-%llx", witness, (unsigned long long)m->start, (unsigned long long)m->end);
    if (!stat_now(path, about)) {
        snprintf(path, sizeof path, "/proc/%d/root%s", witness, m->path);
        if (!stat_now(path, about))
            return false;
    }
    return S_ISREG(about->stx_mode) && about->stx_ino == m->inode
        && makedev(about->stx_dev_major, about->stx_dev_minor) == m->device;
}

static void read_now(void *argument)
{
    struct reading *reading = argument;
    struct statx about;

    for (const struct mapping *m = reading->maps->list; m < reading->maps->list + reading->maps->count; m++) {
        if (!m->is_file || m->offset || m->path[0] != '/' || !stat_mapped(reading->witness, m, &about))
            continue;
        reading->list = grown(reading->list, reading->count, sizeof *reading->list);
        reading->list[reading->count++] = (struct written){ m->start, about.stx_size, about.stx_mtime.tv_sec,
                                                            about.stx_mtime.tv_nsec };
    }
}

void add_written_note(struct notes *notes, pid_t witness, const struct maps *maps)
{
    struct reading reading = { .witness = witness, .maps = maps };

    apart(read_now, &reading);      /* the way to a path may lead through a disk that does not answer */
    if (reading.count)
        add_note(notes, "LEAKFIND", NOTE_TYPE, reading.list, reading.count * sizeof *reading.list);
    free(reading.list);
}
