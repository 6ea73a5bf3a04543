/* Grows by a list that it holds, and by blocks that it loses: one session of 200 bytes each time, and one answer of 500 bytes at each
 * third, for at most ten minutes or so. What it loses is wiped from the stack by then. */
#include <stdio.h>
#include <stdlib.h>
#include <string.h>
#include <unistd.h>

enum { STEPS = 60000, PAUSE_US = 10000 };

struct session {
    struct session *next;
    char rest[192];
};

static struct session *sessions;

__attribute__((noinline)) static void add_session(void)
{
    struct session *s = malloc(sizeof *s);

    memset(s->rest, 1, sizeof s->rest);
    s->next = sessions;
    sessions = s;
}

__attribute__((noinline)) static void lose_answer(void)
{
    char *volatile answer = malloc(500);

    snprintf(answer, 500, "HTTP/1.1 200 OK, and %d more", 7);
    answer = NULL;
}

__attribute__((noinline)) static void wipe(void)
{
    volatile char room[4096];

    for (size_t i = 0; i < sizeof room; i++)
        room[i] = 0;
}

int main(void)
{
    for (int i = 0; i < STEPS; i++) {
        add_session();
        if (i % 3 == 0)
            lose_answer();
        wipe();
        usleep(PAUSE_US);
    }
    return 0;
}
