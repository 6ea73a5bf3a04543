/* Preloaded into a server: once the file that LOSE names is there, the next thread that waits or reads loses 61 lists of three
 * blocks of 1240 bytes, and leaves their addresses on its stack. */
#define _GNU_SOURCE
#include <dlfcn.h>
#include <poll.h>
#include <stdlib.h>
#include <string.h>
#include <sys/epoll.h>
#include <sys/socket.h>
#include <sys/syscall.h>
#include <unistd.h>

enum { LISTS = 61, BLOCKS = 3, SIZE = 1240 };

struct node {
    struct node *next;
    char bytes[SIZE - sizeof(struct node *)];
};

static __attribute__((noinline)) struct node *make_list(void)
{
    struct node *head = NULL;

    for (int i = 0; i < BLOCKS; i++) {
        struct node *node = malloc(sizeof *node);
        memset(node->bytes, i + 1, sizeof node->bytes);
        node->next = head;
        head = node;
    }
    return head;
}

static __attribute__((noinline)) void lose_lists(void)
{
    struct node *volatile heads[LISTS];

    for (int i = 0; i < LISTS; i++)
        heads[i] = make_list();
    __asm__ volatile("" : : "r"(heads) : "memory");
}

static void lose_once(void)
{
    static int is_done;
    const char *path = getenv("LOSE");

    if (!__atomic_load_n(&is_done, __ATOMIC_RELAXED) && path && !syscall(SYS_access, path, F_OK)
        && !__atomic_exchange_n(&is_done, 1, __ATOMIC_SEQ_CST))
        lose_lists();
}

#define LOSES(type, name, parameters, arguments)            \
    type name parameters                                    \
    {                                                       \
        static type(*real) parameters;                      \
                                                            \
        if (!real)                                          \
            real = (type(*) parameters)dlsym(RTLD_NEXT, #name); \
        lose_once();                                        \
        return real arguments;                              \
    }

LOSES(int, epoll_wait, (int file, struct epoll_event *events, int most, int wait), (file, events, most, wait))
LOSES(int, epoll_pwait, (int file, struct epoll_event *events, int most, int wait, const __sigset_t *signals),
      (file, events, most, wait, signals))
LOSES(int, poll, (struct pollfd * files, nfds_t count, int wait), (files, count, wait))
LOSES(ssize_t, recv, (int file, void *to, size_t size, int flags), (file, to, size, flags))
LOSES(ssize_t, read, (int file, void *to, size_t size), (file, to, size))
