/* Which tables are there, and the end of those whose processes are dead. */
#define _GNU_SOURCE
#include <errno.h>
#include <fcntl.h>
#include <glob.h>
#include <stdlib.h>
#include <string.h>
#include <unistd.h>

#include "tables.h"

struct tables {
    struct table *list;
    size_t count;
};

/* The names that the files of tables may have, for glob(3). What follows %p, or a dot at the end, begins with a number. */
static char *pattern_of(const char *name)
{
    const char *number = strstr(name, "%p");
    char *pattern = malloc(2 * strlen(name) + 16), *to = pattern;

    if (!pattern)
        fail("out of memory");
    for (const char *at = name; *at; at++)
        if (at == number) {
            to = stpcpy(to, "[0-9]*");
            at++;
        } else {
            if (strchr("*?[\\", *at))
                *to++ = '\\';
            *to++ = *at;
        }
    strcpy(to, number ? "" : ".[0-9]*");
    return pattern;
}

static void add_table(struct tables *tables, const char *path)
{
    struct table table = { 0 };
    int file = open_table(path, &table.about);

    if (file < 0)
        return;
    table.head = read_head(file);
    close(file);
    if (!table.head)
        return;
    table.path = strdup(path);
    if (!table.path)
        fail("out of memory");
    find_state(&table);
    tables->list = grown(tables->list, tables->count, sizeof *tables->list);
    tables->list[tables->count++] = table;
}

static struct tables find_tables(const char *name)
{
    struct tables tables = { 0 };
    char *pattern = pattern_of(name);
    glob_t found;

    if (!glob(pattern, GLOB_NOSORT, NULL, &found)) {
        for (size_t i = 0; i < found.gl_pathc; i++)
            add_table(&tables, found.gl_pathv[i]);
        globfree(&found);
    }
    free(pattern);
    return tables;
}

static int lives(const struct table *table)
{
    return table->state == LIVE || table->state == UNTRACED;
}

/* Those that live come first, and then by number. */
static int by_number(const void *a, const void *b)
{
    const struct table *x = a, *y = b;

    if (lives(x) != lives(y))
        return lives(y) - lives(x);
    return x->process != y->process ? (x->process > y->process) - (x->process < y->process) : strcmp(x->path, y->path);
}

/* The name that the process has now, where it is not that of the program. */
static void print_new_name(const struct table *table)
{
    const char *slash = strrchr(table->head->program, '/'), *name = slash ? slash + 1 : table->head->program;
    char now[16];

    if (!lives(table) || !process_name(table->process, now) || !strncmp(now, name, 15))
        return;
    fputs(", now ", stdout);
    print_escaped(stdout, now);
}

static void print_table(const struct table *table)
{
    static const char *const names[] = { [LIVE] = "live", [UNTRACED] = "untraced", [DEAD] = "dead", [ENDED] = "ended",
                                         [ELSEWHERE] = "elsewhere", [UNKNOWN] = "unknown" };

    printf("%8d %-8s %10llu  ", table->process, names[table->state], (unsigned long long)table->about.st_blocks / 2);
    print_escaped(stdout, table->head->program);
    fputs(", ", stdout);
    print_escaped(stdout, table->path);
    print_new_name(table);
    putchar('\n');
}

/* Prints the children that ran programs untraced: those that shared the memory of this process, and the process itself. */
static unsigned print_untraced(const struct table *table, unsigned count)
{
    const struct table_head *head = table->head;

    for (size_t i = 0; i <= MOST_UNTRACED && i <= head->untraced_count; i++) {
        int is_itself = i == MOST_UNTRACED || i == head->untraced_count;
        const char *program = is_itself ? head->next_program : head->untraced[i].program;
        uint64_t process = is_itself ? head->pid : head->untraced[i].pid;
        if (is_itself ? table->state != UNTRACED && (table->state != DEAD || head->state != TABLE_EXEC) : !process)
            continue;
        if (count++)
            fputs(", ", stdout);
        print_escaped(stdout, program);
        printf(" %llu", (unsigned long long)process);
    }
    return count;
}

static unsigned count_untraced(const struct table *table)
{
    const struct table_head *head = table->head;
    unsigned count = table->state == UNTRACED || (table->state == DEAD && head->state == TABLE_EXEC);

    for (size_t i = 0; i < MOST_UNTRACED && i < head->untraced_count; i++)
        count += head->untraced[i].pid != 0;
    return count;
}

static void tell_untraced(const struct tables *tables)
{
    unsigned all = 0, count = 0;

    for (size_t i = 0; i < tables->count; i++)
        all += count_untraced(tables->list + i);
    if (!all)
        return;
    printf("%u children were not traced: ", all);
    for (size_t i = 0; i < tables->count; i++)
        count = print_untraced(tables->list + i, count);
    putchar('\n');
}

/* Is it shown without --all? What others left behind may be anything. */
static int is_of_concern(const struct table *table)
{
    return lives(table) || table->about.st_uid == geteuid();
}

/* Takes out what is not shown, and gives how many these are. */
static size_t leave_out(struct tables *tables)
{
    size_t kept = 0, all = tables->count;

    for (size_t i = 0; i < all; i++)
        if (is_of_concern(tables->list + i))
            tables->list[kept++] = tables->list[i];
    tables->count = kept;
    return all - kept;
}

int list_tables(const char *name, int shows_all)
{
    struct tables tables = find_tables(name);
    size_t hidden = shows_all ? 0 : leave_out(&tables);

    if (tables.count)
        qsort(tables.list, tables.count, sizeof *tables.list, by_number);
    printf("%8s %-8s %10s  %s\n", "pid", "process", "KiB", "program, table");
    for (size_t i = 0; i < tables.count; i++)
        print_table(tables.list + i);
    if (hidden)
        printf("%zu more are of other users, and no process is known to live: --all shows them\n", hidden);
    tell_untraced(&tables);
    return fflush(stdout) ? 2 : 0;
}

/* Removes the file if it is still the one that was looked at. */
static int remove_table(const struct table *table)
{
    struct stat about;

    if (lstat(table->path, &about) || about.st_ino != table->about.st_ino || about.st_dev != table->about.st_dev)
        return 1;
    if (!unlink(table->path)) {
        fputs("removed ", stdout);
        print_escaped(stdout, table->path);
        putchar('\n');
        return 1;
    }
    warn("%s: %s", table->path, strerror(errno));
    return 0;
}

int remove_tables(const char *name)
{
    struct tables tables = find_tables(name);
    int status = 0;

    for (size_t i = 0; i < tables.count; i++)
        if (tables.list[i].state == DEAD || tables.list[i].state == ENDED)
            status |= !remove_table(tables.list + i);
    return fflush(stdout) ? 2 : status;
}
