/* leak_what CORE LOG REPORT [ADDRESS..]: tells of each lost block what its content says it is. It goes by what is in
 * the block, by the files that the process had mapped, and by the blocks that are held. leak_what --place CORE
 * ADDRESS..: tells where addresses of the process are. */
#include <stdio.h>
#include <stdlib.h>

#include "types.h"

const char program[] = "leak_what",
           usage[] = "usage: leak_what [--root DIR].. CORE LOG REPORT [ADDRESS..] |\n"
                     "       leak_what --types [--root DIR].. CORE LOG | leak_what --place CORE ADDRESS.. | leak_what --version\n", help[] =
    "Writes to standard output what the leaked blocks of a report are, a line for each fact: the text that a block\n"
    "begins with, its pointers to functions and variables, the reachable block that it looks like, and what was\n"
    "lost with it.\n\n"
    "  CORE     a core of the process, written by leak_core, gcore or the kernel\n"
    "  LOG      its live blocks, by leak_walk or leak_log\n"
    "  REPORT   leak_find's report of them\n"
    "  ADDRESS  describes only the blocks at these addresses, leaked or reachable\n"
    "  --types  copies the log, with types of blocks in place of their sizes, from the files' debug information\n"
    "  --place  prints the symbol, file or stack in which each address lies\n"
    "  --root   looks for the process's mapped files below DIR first, as a process with that root would\n"
    "  --version  prints the version\n\n"
    "status: 0; 2 if there is no answer, with a line on standard error\n";

static long lost_place(const struct structures *s, long block)
{
    size_t low = 0, high = s->count;

    while (low < high) {
        size_t middle = low + (high - low) / 2;
        if (s->lost[middle] < block)
            low = middle + 1;
        else
            high = middle;
    }
    return low < s->count && s->lost[low] == block ? (long)low : NONE;
}

static uint64_t address_of(const char *text)
{
    char *rest;
    uint64_t address = strtoull(text, &rest, 16);

    if (!strlen(text) || *rest)
        fail("%s: not an address", text);
    return address;
}

static void tell_one(struct what *what, struct sources *sources, const char *text)
{
    long block = block_of(&what->blocks, address_of(text));

    if (block == NONE)
        fail("%s: no live block has this address", text);
    put_facts(what, sources, block, lost_place(&sources->structures, block));
}

static int tell_places(int count, char **words)
{
    struct what what = { .core = read_core(words[2]) };

    what.modules = find_modules(&what.core, NULL, 0);
    for (int i = 3; i < count; i++)
        put_where(&what, address_of(words[i]));
    put_end();
    return 0;
}

/* Takes the folders that follow --root to the front of the words, and gives how many there are. `*at` becomes the
 * number of the first word that is no option. */
static size_t take_roots(int count, char **words, int *at)
{
    size_t found = 0;

    for (; *at + 1 < count && !strcmp(words[*at], "--root"); *at += 2)
        words[found++] = words[*at + 1];
    return found;
}

/* Tells of the lost blocks, or of those that the words after CORE LOG REPORT name. */
static int tell_blocks(char **words, int count, char **roots, size_t root_count)
{
    struct what what = { .core = read_core(words[0]) };
    struct sources sources;

    what.blocks = read_blocks(words[1], words[2]);
    what.modules = find_modules(&what.core, roots, root_count);
    sources.roles = find_roles(&what);
    sources.classes = find_classes(&what, &sources.roles);
    sources.structures = find_structures(&what);
    sources.containers = find_containers(&what);
    for (int i = 3; i < count; i++)
        tell_one(&what, &sources, words[i]);
    for (size_t i = 0; count == 3 && i < sources.structures.count; i++)
        put_facts(&what, &sources, sources.structures.lost[i], i);
    tell_left_out(sources.classes);
    put_end();
    return 0;
}

int main(int count, char **words)
{
    int types = count > 1 && !strcmp(words[1], "--types"), at = 1 + types;
    size_t roots;

    if (count >= 4 && !strcmp(words[1], "--place"))
        return tell_places(count, words);
    roots = take_roots(count, words, &at);
    if (count - at < 2 || words[at][0] == '-' || (types ? count - at > 2 : count - at < 3))
        refuse_words(count, words);
    if (types)
        return write_typed_log(words[at], words[at + 1], words, roots);
    return tell_blocks(words + at, count - at, words, roots);
}
