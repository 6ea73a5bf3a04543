/* hostile_tables COUNT FOLDER: maps so many files, each of which says that it is a table of leak_trace, with as much memory of its own as a table can name. */
#define _GNU_SOURCE
#include <fcntl.h>
#include <stdio.h>
#include <stdlib.h>
#include <string.h>
#include <sys/mman.h>
#include <unistd.h>

#include "../table.h"

int main(int count, char **words)
{
    static struct table_head head;

    if (count != 3)
        return 3;
    memcpy(head.magic, TABLE_MAGIC, sizeof head.magic);
    head.own_count = MOST_OWN;
    for (uint64_t i = 0; i < MOST_OWN; i++)
        head.own[i] = (struct own){ (i + 1) << 40, 1 };
    for (int i = 0; i < atoi(words[1]); i++) {
        char path[512];
        snprintf(path, sizeof path, "%s/table.%d", words[2], i);
        int file = open(path, O_RDWR | O_CREAT | O_TRUNC, 0600);
        if (file < 0 || ftruncate(file, sizeof head))
            return 3;
        struct table_head *mapped = mmap(NULL, sizeof head, PROT_READ | PROT_WRITE, MAP_SHARED, file, 0);
        if (mapped == MAP_FAILED)
            return 3;
        close(file);
        head.base = (uintptr_t)mapped;
        memcpy(mapped, &head, sizeof head);
    }
    puts("ready");
    fflush(stdout);
    pause();
    return 0;
}
