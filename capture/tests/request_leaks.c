/* Preloaded into a server: for each connection that it accepts it loses a list of three blocks of 1,016 bytes. */
#define _GNU_SOURCE
#include <dlfcn.h>
#include <stdlib.h>
#include <sys/socket.h>
struct node { struct node *next; char rest[1008]; };
static struct node *one(struct node *next)
{
    struct node *node = calloc(1, sizeof *node);
    node->next = next;
    __asm__ volatile("" : : "r"(node) : "memory");
    return node;
}
static __attribute__((noinline)) void lose_list(void) { one(one(one(NULL))); }
int accept4(int socket, struct sockaddr *address, socklen_t *size, int flags)
{
    static int (*real)(int, struct sockaddr *, socklen_t *, int);
    if (!real)
        real = dlsym(RTLD_NEXT, "accept4");
    int got = real(socket, address, size, flags);
    if (got >= 0)
        lose_list();
    return got;
}
