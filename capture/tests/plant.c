/* Preloaded into a program: each of the first five calls of close() and of fclose() in a process loses 36 blocks by three functions. Their
 * addresses, which a child of fork has too, are written as text into FOLDER/PID. They are kept complemented. */
#define _GNU_SOURCE
#include <dlfcn.h>
#include <fcntl.h>
#include <stdint.h>
#include <stdio.h>
#include <stdlib.h>
#include <string.h>
#include <sys/syscall.h>
#include <unistd.h>

enum { TIMES = 5, MOST = 4096, NODES = 8, RING = 3, TEXTS = 16 };
struct node { struct node *next; char *text; };

static uintptr_t planted[MOST];
static int count;
static pid_t owner;
static int times[2];
static __thread int busy;

static void *plant(size_t size)
{
    void *p = calloc(1, size);

    if (p && count < MOST)
        planted[count++] = ~(uintptr_t)p;
    return p;
}

static char *plant_text(size_t size)
{
    return memset(plant(size), 'x', size - 1);
}

static void lose_a_list(void)
{
    struct node *head = NULL;

    for (int i = 0; i < NODES; i++) {
        struct node *node = plant(sizeof *node);
        *node = (struct node){ head, plant_text(10 + 9 * i) };
        head = node;
    }
}

static void lose_a_ring(void)
{
    struct node *first = plant(40), *last = first;

    for (int i = 1; i < RING; i++)
        last = last->next = plant(40);
    last->next = first;
}

static void lose_a_table(void)
{
    char **table = plant(TEXTS * sizeof *table);

    for (int i = 0; i < TEXTS; i++)
        table[i] = plant_text(20 + 5 * i);
}

static void write_down(void)
{
    char line[200];

    snprintf(line, sizeof line, "%s/%d", FOLDER, (int)getpid());
    unlink(line);               /* it may be another user's */
    int file = open(line, O_WRONLY | O_CREAT | O_TRUNC | O_CLOEXEC, 0666);
    for (int i = 0; i < count && file >= 0; i++) {
        int bytes = snprintf(line, sizeof line, "%#lx\n", ~planted[i]);
        if (write(file, line, bytes) < 0)
            break;
    }
    syscall(SYS_close, file);
}

/* Plants if this is one of the first calls of its kind in this process, and gives the call on. */
static void plant_at(int kind)
{
    if (owner != getpid()) {
        owner = getpid();
        times[0] = times[1] = 0;
    }
    if (busy || times[kind]++ >= TIMES)
        return;
    busy = 1;
    lose_a_list();
    lose_a_ring();
    lose_a_table();
    write_down();
    busy = 0;
}

int close(int file)
{
    plant_at(0);
    return syscall(SYS_close, file);
}

int fclose(FILE *file)
{
    static int (*real)(FILE *);

    if (!real)
        real = (int (*)(FILE *))dlsym(RTLD_NEXT, "fclose");
    plant_at(1);
    return real(file);
}
