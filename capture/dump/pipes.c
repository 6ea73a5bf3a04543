/* Bytes that wait in a pipe, copied by tee(2), which takes nothing out. A program may send pointers so from one of its threads to
 * another. */
#define _GNU_SOURCE
#include <fcntl.h>
#include <stdio.h>
#include <string.h>
#include <sys/stat.h>
#include <unistd.h>

#include "words.h"

enum { ROOM = 1 << 16 };

/* Copies what waits, and gives how many bytes. */
static ssize_t copy_waiting(int from, char *bytes)
{
    int ends[2];
    ssize_t got = 0;

    if (pipe2(ends, O_NONBLOCK | O_CLOEXEC))
        return 0;
    if (tee(from, ends[1], ROOM, SPLICE_F_NONBLOCK) > 0)
        got = read(ends[0], bytes, ROOM);
    close(ends[0]);
    close(ends[1]);
    return got;
}

/* Only of a descriptor that reads: to open a pipe that nobody reads would give it a reader. Words begin at the first byte that
 * waits, and follow one another. */
void read_pipe(pid_t witness, int descriptor, struct words *words)
{
    static char bytes[ROOM];
    char path[64];
    struct stat link;
    uint64_t value;

    snprintf(path, sizeof path, "/proc/%d/fd/%d", witness, descriptor);
    if (lstat(path, &link) || !(link.st_mode & S_IRUSR))
        return;
    int from = open(path, O_RDONLY | O_NONBLOCK | O_CLOEXEC);
    if (from < 0)
        return;
    ssize_t got = copy_waiting(from, bytes);
    close(from);
    for (ssize_t at = 0; at + (ssize_t)sizeof value <= got; at += sizeof value) {
        memcpy(&value, bytes + at, sizeof value);
        add_word(words, (struct word){ PIPE_BYTES, descriptor, value, 0 });
    }
}
