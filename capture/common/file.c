/* Files, mapped completely, and lines of earlier logs. */
#define _GNU_SOURCE
#include <errno.h>
#include <fcntl.h>
#include <signal.h>
#include <stdio.h>
#include <string.h>
#include <sys/mman.h>
#include <sys/stat.h>
#include <unistd.h>

#include "common.h"

/* A mapped file that became shorter meanwhile, or that its disk can't read. */
static void refuse_fault(int signal)
{
    (void)signal;
    dprintf(STDERR_FILENO, "%s: a file can't be read any more: it became shorter, or its disk has a fault\n", program);
    _exit(REFUSED);
}

/* The file at a place (O_PATH), which is closed, if it is a regular one, or -1. Nothing else is opened: to open a FIFO or a device
 * may do something, or wait. */
int reopen_regular(int place)
{
    char path[64];
    struct stat about;
    int file = -1;

    if (place < 0)
        return -1;
    snprintf(path, sizeof path, "/proc/self/fd/%d", place);
    if (!fstat(place, &about) && S_ISREG(about.st_mode))
        file = open(path, O_RDONLY | O_NONBLOCK | O_CLOEXEC);
    close(place);
    return file;
}

/* The regular file at this path, or -1. No link is followed. */
int open_regular(const char *path)
{
    return reopen_regular(open(path, O_PATH | O_NOFOLLOW | O_CLOEXEC));
}

/* A FIFO or a device is no file to be mapped, and is not waited for. */
struct file map_file(const char *path)
{
    struct file file = { .bytes = (const uint8_t *)"", .path = path, .descriptor = open(path, O_RDONLY | O_NONBLOCK | O_CLOEXEC) };
    struct stat about;

    if (file.descriptor < 0 || fstat(file.descriptor, &about))
        fail("%s: %s", path, strerror(errno));
    if (!S_ISREG(about.st_mode))
        fail("%s: %s", path, S_ISDIR(about.st_mode) ? strerror(EISDIR) : "no regular file");
    signal(SIGBUS, refuse_fault);
    file.size = about.st_size;
    if (file.size)
        file.bytes = mmap(NULL, file.size, PROT_READ, MAP_PRIVATE, file.descriptor, 0);
    if (file.bytes == MAP_FAILED)
        fail("%s: %s", path, strerror(errno));
    return file;
}

/* Where in the file there is data, at the place or after it, or the file's size: what lies between is a hole, which has only zeros and may
 * be any number of times larger than what the file takes of its disk (lseek(2)). */
uint64_t next_data(struct file *file, uint64_t at)
{
    if (at >= file->data && at < file->data_end)
        return at;
    off_t data = lseek(file->descriptor, at, SEEK_DATA), hole;
    if (data < 0)
        return errno == ENXIO ? file->size : at;
    hole = lseek(file->descriptor, data, SEEK_HOLE);
    file->data = data;
    file->data_end = hole < 0 ? file->size : (uint64_t)hole;
    return data;
}

int begins(const char *at, const char *stop, const char *with)
{
    return (size_t)(stop - at) > strlen(with) && !memcmp(at, with, strlen(with));
}

/* Where the line ends that begins there. A log that was made completely has an end of its last line too. */
const char *end_of_line(struct file log, const char *at)
{
    const char *stop = memchr(at, '\n', (const char *)log.bytes + log.size - at);

    if (!stop)
        fail("%s: the log ends in the middle of a line", log.path);
    return stop;
}
