/* The head of a table. Its folder is anybody's: a name there may be a FIFO, a device or a link. */
#define _GNU_SOURCE
#include <fcntl.h>
#include <stdlib.h>
#include <string.h>
#include <time.h>
#include <unistd.h>

#include "tables.h"

/* Opens the file if it is a regular one; no link is followed. -1 if it isn't. */
int open_table(const char *path, struct stat *about)
{
    int file = open_regular(path);

    if (file >= 0 && fstat(file, about)) {
        close(file);
        return -1;
    }
    return file;
}

/* The head, whose texts end, or NULL if the file is no table. */
struct table_head *read_head(int file)
{
    struct table_head *head = malloc(sizeof *head);

    if (!head)
        fail("out of memory");
    if (pread(file, head, sizeof *head, 0) != sizeof *head || memcmp(head->magic, TABLE_MAGIC, sizeof head->magic)) {
        free(head);
        return NULL;
    }
    head->program[PROGRAM_BYTES - 1] = head->next_program[PROGRAM_BYTES - 1] = 0;
    for (size_t i = 0; i < MOST_UNTRACED; i++)
        head->untraced[i].program[sizeof head->untraced[i].program - 1] = 0;
    return head;
}

/* Prints since when the table has blocks, if that is not the process's start, or else how many found no place. */
int tell_lack(const char *path)
{
    struct stat about;
    int file = open_table(path, &about);
    struct table_head *head = file < 0 ? NULL : read_head(file);
    char when[64] = "";

    if (!head)
        fail("%s: not a table of leak_trace", path);
    if (head->began) {
        time_t began = head->began;
        struct tm time;
        if (localtime_r(&began, &time))
            strftime(when, sizeof when, " at %Y-%m-%d %H:%M:%S", &time);
        printf("began%s\n", when);
    } else if (head->missed) {
        printf("missed %llu blocks\n", (unsigned long long)head->missed);
    }
    close(file);
    free(head);
    return fflush(stdout) ? 2 : 0;
}
