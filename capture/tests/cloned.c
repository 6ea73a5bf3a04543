/* A child by a bare clone, as vsftpd's: it has its parent's table mapped, and none of its own. */
#define _GNU_SOURCE
#include <sched.h>
#include <signal.h>
#include <sys/syscall.h>
#include "lose.h"
int main(void)
{
    LOSE(malloc(45));
    syscall(SYS_clone, SIGCHLD, 0, 0, 0, 0);
    rest();
}
