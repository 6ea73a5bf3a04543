/* What the files of leak_tables share. */
#ifndef LEAK_TABLES_H
#define LEAK_TABLES_H

#include <stdint.h>
#include <stdio.h>
#include <sys/stat.h>
#include <sys/types.h>

#include "../common/common.h"
#include "../table.h"

/* What became of the process of a table. Only what is DEAD or ENDED may be removed. */
enum state {
    LIVE,               /* a process has the table mapped */
    UNTRACED,           /* its process runs another program now, which is not traced */
    DEAD,
    ENDED,              /* by itself, but it could not remove the table */
    ELSEWHERE,          /* it may live in another container, whose processes can't all be seen from here */
    UNKNOWN,            /* it may not be looked at */
};

struct table {
    char *path;
    struct stat about;
    struct table_head *head;
    enum state state;
    pid_t process;      /* as it is seen from here, or else as it saw itself */
};

/* A line of /proc/PID/maps of memory that is shared and can be written. */
struct shared {
    uint64_t start, end, offset, inode;
    const char *path;   /* up to the line's end */
};

/* head.c */
int open_table(const char *path, struct stat *about);
struct table_head *read_head(int file);
int tell_lack(const char *path);

/* maps.c */
FILE *open_maps(pid_t process);
int next_shared(FILE *maps, char **line, size_t *room, struct shared *shared);
int has_mapped(pid_t process, const struct table *table);
int is_alive(pid_t process);
uint64_t started(pid_t process);
uint64_t namespace_of(pid_t process);
pid_t inner_number(pid_t process);
int process_name(pid_t process, char name[16]);

/* state.c */
void find_state(struct table *table);

/* list.c */
int list_tables(const char *pattern, int shows_all);
int remove_tables(const char *pattern);

/* own.c */
int tell_own(pid_t process);

#endif
