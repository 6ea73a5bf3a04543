/* leak_tables --list [--all] NAME | --remove NAME | --of PID | --lacks TABLE: the tables of leak_trace.so. leak_trace and leak_dump call it.
 *
 * NAME is the name of the tables, in which %p is the number of a process; without it a dot and the number follow. --of tells which
 * table a process writes, in four lines: `own`, or `other` for that of the process it was cloned from; the path; what to open; and the
 * bytes it takes. */
#include <stdlib.h>
#include <string.h>

#include "tables.h"

const char program[] = "leak_tables",
           usage[] = "usage: leak_tables --list [--all] NAME | --remove NAME | --of PID | --lacks TABLE | --version\n", help[] =
    "Shows the tables that leak_trace keeps, or removes those of dead processes. leak_trace and leak_dump call it.\n\n"
    "  NAME      the name of the tables, in which %p is a PID\n"
    "  --list    shows your own tables and those of living processes\n"
    "  --all     shows all tables\n"
    "  --remove  removes the tables of dead processes; one that may live in another container keeps its table\n"
    "  --of      prints the table that a process writes\n"
    "  --lacks   prints why a table lacks blocks\n"
    "  --version prints the version\n\n"
    "status: 0; 1 if there is none, or one can't be removed; 2 with a line on standard error\n";

int main(int count, char **words)
{
    if (count == 3 && !strcmp(words[1], "--list"))
        return list_tables(words[2], 0);
    if (count == 4 && !strcmp(words[1], "--list") && !strcmp(words[2], "--all"))
        return list_tables(words[3], 1);
    if (count == 3 && !strcmp(words[1], "--remove"))
        return remove_tables(words[2]);
    if (count == 3 && !strcmp(words[1], "--of") && atoi(words[2]) > 0)
        return tell_own(atoi(words[2]));
    if (count == 3 && !strcmp(words[1], "--lacks"))
        return tell_lack(words[2]);
    refuse_words(count, words);
}
