/* heaps_patched CHANGES, for a fuzzer: leak_walk of the core that the variable CORE names, of which words are changed.
 * The file that PLACES names has where in the core's file the records of a heap have theirs, 8 bytes for each; CHANGES
 * has 10 for each change: which of these words, and what it becomes. */
#define _GNU_SOURCE
#include <stdint.h>
#include <stdio.h>
#include <stdlib.h>
#include <string.h>
#include <sys/mman.h>
#include <unistd.h>

#define main walk_main
#include "walk/leak_walk.c"
#undef main

struct bytes {
    char *at;
    size_t size;
};

static struct bytes contents(const char *path)
{
    struct bytes all = { NULL, 0 };
    FILE *file = fopen(path, "rb");

    if (!file || fseek(file, 0, SEEK_END))
        abort();
    all.size = ftell(file);
    all.at = malloc(all.size + 1);
    rewind(file);
    if (!all.at || fread(all.at, 1, all.size, file) != all.size)
        abort();
    fclose(file);
    return all;
}

static void change(struct bytes core, struct bytes places, const char *change)
{
    uint64_t place;
    uint16_t number;

    memcpy(&number, change, sizeof number);
    memcpy(&place, places.at + number % (places.size / sizeof place) * sizeof place, sizeof place);
    memcpy(core.at + place, change + sizeof number, sizeof place);
}

int main(int count, char **words)
{
    enum { CHANGE = 10 };
    struct bytes core = contents(getenv("CORE")), places = contents(getenv("PLACES"));
    struct bytes changes = contents(words[count - 1]);
    int file = memfd_create("core", 0);
    char path[40], quiet[] = "--quiet", *of_walk[] = { words[0], quiet, path, NULL };

    for (size_t at = 0; at + CHANGE <= changes.size; at += CHANGE)
        change(core, places, changes.at + at);
    if (file < 0 || write(file, core.at, core.size) != (ssize_t)core.size)
        abort();
    snprintf(path, sizeof path, "/proc/self/fd/%d", file);
    return walk_main(3, of_walk);
}
