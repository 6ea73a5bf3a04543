/* What became of the process of a table. A table names its process by a number that holds in a namespace, which may be a
 * container's: in another one the number is another process's, or nobody's. So what may live counts as living. */
#include <dirent.h>
#include <stdlib.h>
#include <unistd.h>

#include "tables.h"

/* The namespace in which the system began (Linux, PROC_PID_INIT_INO): from there all processes are seen. */
static const uint64_t FIRST_NAMESPACE = 0xEFFFFFFC;

/* Are the numbers in /proc those of this process's namespace? It may have that of another mounted. */
static int is_proc_ours(void)
{
    char number[32] = "";

    return readlink("/proc/self", number, sizeof number - 1) > 0 && atoi(number) == getpid();
}

/* The state of one whose process, if it lives, has this number here. */
static enum state by_number(const struct table *table, pid_t process)
{
    int maps;

    if (!is_alive(process))
        return DEAD;
    maps = has_mapped(process, table);
    if (maps)
        return maps < 0 ? UNKNOWN : LIVE;
    return table->head->started == started(process) ? UNTRACED : DEAD;
}

/* Looks for it among all processes. */
static void find_anywhere(struct table *table)
{
    DIR *folder = opendir("/proc");
    int sees_all = folder && is_proc_ours() && namespace_of(getpid()) == FIRST_NAMESPACE;

    table->state = DEAD;
    for (struct dirent *entry; folder && table->state == DEAD && (entry = readdir(folder));) {
        pid_t process = atoi(entry->d_name);
        if (process <= 0 || !is_alive(process))
            continue;
        int maps = has_mapped(process, table);
        sees_all &= maps >= 0 || !is_alive(process);
        if (maps > 0)
            table->state = LIVE;
        else if (namespace_of(process) == table->head->pid_namespace && inner_number(process) == table->process)
            table->state = by_number(table, process) == UNTRACED ? UNTRACED : DEAD;
        if (table->state != DEAD)
            table->process = process;
    }
    if (folder)
        closedir(folder);
    if (table->state == DEAD && !sees_all)
        table->state = ELSEWHERE;
}

void find_state(struct table *table)
{
    uint64_t own = namespace_of(getpid());

    table->process = (pid_t)table->head->pid;
    if (table->head->state == TABLE_ENDED)
        table->state = ENDED;
    else if (table->head->pid_namespace && table->head->pid_namespace == own && is_proc_ours() && table->process > 0)
        table->state = by_number(table, table->process);
    else
        find_anywhere(table);
}
