/* Allocates, forks, allocates, and says hello. */
#include <stdio.h>
#include <sys/wait.h>
#include "lose.h"
static void *volatile held[100000];
int main(void)
{
    for (int i = 0; i < 100000; i++) held[i] = malloc(i % 300);
    pid_t p = fork();
    for (int i = 0; i < 100000; i++) { free(held[i]); held[i] = malloc(i % 500); }
    if (p) { waitpid(p, NULL, 0); puts("hello"); }
    return 0;
}
