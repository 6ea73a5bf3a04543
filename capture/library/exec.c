/* Programs that this one runs. One that is run without the variables which the library goes by is not traced: the table says so,
 * or the variables are handed on (LEAK_TRACE_EXEC). An exec may come in a child of vfork, so nothing here allocates. */
#define _GNU_SOURCE
#include <dlfcn.h>
#include <errno.h>
#include <fcntl.h>
#include <spawn.h>
#include <stdarg.h>
#include <stdio.h>
#include <string.h>
#include <unistd.h>

#include "trace.h"

enum { MOST_VARIABLES = 12, VARIABLE_BYTES = 4096, MOST_ENVIRONMENT = 1 << 16 };

#define EXECS(DO) DO(execve) DO(execvpe) DO(fexecve) DO(execveat) DO(posix_spawn) DO(posix_spawnp)
#define REAL(call) static __typeof__(call) *real_##call;
EXECS(REAL)

static char kept[4 * VARIABLE_BYTES];
static char *variables[MOST_VARIABLES + 1];     /* LD_PRELOAD in front */

static int is_preload(const char *variable)
{
    return !strncmp(variable, "LD_PRELOAD=", 11);
}

static int is_ours(const char *variable)
{
    return is_preload(variable) || !strncmp(variable, "LEAK_TRACE=", 11) || !strncmp(variable, "LEAK_TRACE_", 11);
}

/* Copies what is to be handed on, at the start: later it may be gone. */
void keep_variables(char **environment)
{
    char *at = kept;
    int count = 1;

    for (; *environment; environment++) {
        size_t bytes = strlen(*environment) + 1;
        if (!is_ours(*environment) || bytes > (size_t)(kept + sizeof kept - at) || count == MOST_VARIABLES)
            continue;
        variables[is_preload(*environment) ? 0 : count++] = at;
        memcpy(at, *environment, bytes);
        at += bytes;
    }
#define FIND(call) real_##call = (__typeof__(call) *)dlsym(RTLD_NEXT, #call);
    EXECS(FIND)
}

static int same_name(const char *a, const char *b)
{
    size_t name = strcspn(a, "=") + 1;

    return !strncmp(a, b, name);
}

static char *value_in(char *const *environment, const char *variable)
{
    for (; environment && *environment; environment++)
        if (same_name(variable, *environment))
            return *environment;
    return NULL;
}

/* Is a program traced that gets this environment? */
static int is_handed_on(char *const *environment)
{
    char *preload = value_in(environment, "LD_PRELOAD=");

    return preload && strstr(preload, "leak_trace.so");
}

static size_t length_of(char *const *environment)
{
    size_t count = 0;

    while (environment && environment[count])
        count++;
    return count;
}

/* Writes the environment, with our variables if they are missing, into `list`. A value of LD_PRELOAD that has other libraries
 * than ours goes on after ours, in `preload`. */
static void add_variables(char *const *environment, char **list, char *preload)
{
    size_t count = 0;

    for (; environment && *environment; environment++)
        if (!is_preload(*environment))
            list[count++] = *environment;
        else
            snprintf(preload, VARIABLE_BYTES, "%s:%s", variables[0], *environment + strlen("LD_PRELOAD="));
    list[count++] = *preload ? preload : variables[0];
    list[count] = NULL;
    for (int k = 1; k < MOST_VARIABLES; k++)
        if (variables[k] && !value_in(list, variables[k])) {
            list[count++] = variables[k];
            list[count] = NULL;
        }
}

/* Writes the environment without our library into `list`. What else LD_PRELOAD has stays, in `preload`. */
static void leave_library_out(char *const *environment, char **list, char *preload)
{
    const char *value = value_in(environment, "LD_PRELOAD=") + strlen("LD_PRELOAD="), *ours = strstr(value, "leak_trace.so");
    const char *rest = ours + strlen("leak_trace.so");
    size_t before = ours - value, count = 0;

    while (before && value[before - 1] != ':' && value[before - 1] != ' ')
        before--;
    snprintf(preload, VARIABLE_BYTES, "LD_PRELOAD=%.*s%s", (int)before, value, rest + (*rest == ':' || *rest == ' '));
    for (; *environment; environment++)
        if (!is_preload(*environment))
            list[count++] = *environment;
    if (preload[strlen("LD_PRELOAD=")])
        list[count++] = preload;
    list[count] = NULL;
}

/* Says that this process goes on as another program. If that one is traced it removes this table. A child of vfork has
 * none. */
static void tell_exec(const char *program, int is_traced)
{
    if (!tracing())
        return;
    if (table.head->pid != (uint64_t)getpid()) {
        if (!is_traced)
            tell_untraced(table.head, getpid(), program);
        return;
    }
    snprintf(table.head->next_program, PROGRAM_BYTES, "%s", program);
    table.head->state = TABLE_EXEC;
}

/* The exec failed. */
static int goes_on(int result)
{
    uint64_t pid = getpid();

    if (tracing() && table.head->pid == pid)
        table.head->state = TABLE_RUNS;
    for (int i = 0; tracing() && i < MOST_UNTRACED; i++)
        if (table.head->untraced[i].pid == pid)
            table.head->untraced[i].pid = 0;
    return result;
}

/* Does `CALL` with `environment`, which it may lengthen by our variables. From that of a program that `refuses` the library it
 * takes the library out. */
#define WITH_VARIABLES(environment, refuses, CALL)                                                      \
    char preload[VARIABLE_BYTES] = "";                                                                  \
    size_t length = length_of(environment);                                                             \
    int has_library = is_handed_on(environment), may_change = length < MOST_ENVIRONMENT;                \
    int leaves_out = has_library && may_change && (refuses);                                            \
    int lengthens = !has_library && may_change && tracing() && execs_are_traced && variables[0] && !(refuses); \
    char *list[lengthens || leaves_out ? length + MOST_VARIABLES + 2 : 1];                              \
    if (lengthens)                                                                                      \
        add_variables(environment, list, preload);                                                      \
    else if (leaves_out)                                                                                \
        leave_library_out(environment, list, preload);                                                  \
    if (lengthens || leaves_out)                                                                        \
        environment = list;                                                                             \
    CALL

#define EXEC(program, environment, refuses, call)                                                       \
    WITH_VARIABLES(environment, refuses, tell_exec(program, is_handed_on(environment)); return goes_on(call);)

PUBLIC int execve(const char *path, char *const arguments[], char *const environment[])
{
    EXEC(path, environment, refuses_library(AT_FDCWD, path), real_execve(path, arguments, environment))
}

PUBLIC int execvpe(const char *file, char *const arguments[], char *const environment[])
{
    EXEC(file, environment, named_refuses_library(file), real_execvpe(file, arguments, environment))
}

PUBLIC int fexecve(int file, char *const arguments[], char *const environment[])
{
    EXEC(arguments[0], environment, refuses_library(file, ""), real_fexecve(file, arguments, environment))
}

PUBLIC int execveat(int folder, const char *path, char *const arguments[], char *const environment[], int flags)
{
    EXEC(*path ? path : arguments[0], environment, refuses_library(folder, path),
         real_execveat(folder, path, arguments, environment, flags))
}

PUBLIC int execv(const char *path, char *const arguments[])
{
    return execve(path, arguments, environ);
}

PUBLIC int execvp(const char *file, char *const arguments[])
{
    return execvpe(file, arguments, environ);
}

static size_t count_arguments(va_list rest)
{
    size_t count = 1;

    while (va_arg(rest, char *))
        count++;
    return count;
}

/* The arguments of execl and its kin as a list, with room for the first and the end. */
#define TAKE_LIST(first)                                                                                \
    va_list rest;                                                                                       \
    va_start(rest, first);                                                                              \
    size_t count = count_arguments(rest);                                                               \
    va_end(rest);                                                                                       \
    char *arguments[count + 1];                                                                         \
    va_start(rest, first);                                                                              \
    arguments[0] = (char *)first;                                                                       \
    for (size_t k = 1; k <= count; k++)                                                                 \
        arguments[k] = va_arg(rest, char *);

PUBLIC int execl(const char *path, const char *first, ...)
{
    TAKE_LIST(first)
    va_end(rest);
    return execve(path, arguments, environ);
}

PUBLIC int execlp(const char *file, const char *first, ...)
{
    TAKE_LIST(first)
    va_end(rest);
    return execvpe(file, arguments, environ);
}

PUBLIC int execle(const char *path, const char *first, ...)
{
    TAKE_LIST(first)
    char *const *environment = va_arg(rest, char *const *);
    va_end(rest);
    return execve(path, arguments, environment);
}

#define SPAWN(call, refuses)                                                                            \
    PUBLIC int call(pid_t *child, const char *program, const posix_spawn_file_actions_t *actions,       \
                    const posix_spawnattr_t *attributes, char *const arguments[], char *const environment[])  \
    {                                                                                                   \
        pid_t pid = 0;                                                                                  \
        WITH_VARIABLES(environment, refuses,                                                            \
                       int error = real_##call(&pid, program, actions, attributes, arguments, environment);) \
        if (!error && child)                                                                            \
            *child = pid;                                                                               \
        if (!error && tracing() && !is_handed_on(environment))                                          \
            tell_untraced(table.head, pid, program);                                                                \
        return error;                                                                                   \
    }

SPAWN(posix_spawn, refuses_library(AT_FDCWD, program))
SPAWN(posix_spawnp, named_refuses_library(program))
