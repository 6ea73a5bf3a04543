/* What may wait for a disk, or for a page of the process, is done by a second thread. A wait in the kernel can outlast each signal, even SIGKILL
 * (fuse and nfs, once a request was sent), and threads that stand still go on only if their tracer lets them or ends. So the tracer, which is the
 * first thread, only waits for the second one, and looks at signals and at the clock meanwhile. */
#define _GNU_SOURCE
#include <pthread.h>
#include <signal.h>
#include <string.h>
#include <time.h>
#include <unistd.h>

#include "dump.h"

enum { LOOK_NS = 20000000, SECOND_NS = 1000000000 };

static struct {
    pthread_mutex_t lock;
    pthread_cond_t changed;
    pthread_t tracer;
    pid_t second;                   /* the second thread, by the system's number */
    void (*work)(void *argument);   /* what it is to do, or NULL */
    void *argument;
    const char *fault;              /* why it ended, or NULL */
} apart_of = { .lock = PTHREAD_MUTEX_INITIALIZER, .changed = PTHREAD_COND_INITIALIZER };

static void *do_works(void *unused)
{
    pthread_mutex_lock(&apart_of.lock);
    apart_of.second = gettid();
    for (;;) {
        pthread_cond_broadcast(&apart_of.changed);
        while (!apart_of.work)
            pthread_cond_wait(&apart_of.changed, &apart_of.lock);
        pthread_mutex_unlock(&apart_of.lock);
        apart_of.work(apart_of.argument);
        pthread_mutex_lock(&apart_of.lock);
        apart_of.work = NULL;
    }
    return unused;
}

/* Waits until the second thread did what it was told, or there is a reason to end. */
static void wait_for_second(void)
{
    while (apart_of.work) {
        struct timespec until;
        clock_gettime(CLOCK_MONOTONIC, &until);
        until.tv_nsec += LOOK_NS;
        until.tv_sec += until.tv_nsec / SECOND_NS;
        until.tv_nsec %= SECOND_NS;
        pthread_cond_clockwait(&apart_of.changed, &apart_of.lock, CLOCK_MONOTONIC, &until);
        if (apart_of.fault)
            fail("%s", apart_of.fault);
        end_if_asked();
    }
}

/* Starts the second thread. The caller is the tracer, and takes the signals. */
void open_apart(void)
{
    sigset_t all, before;
    pthread_t second;

    apart_of.tracer = pthread_self();
    sigfillset(&all);
    pthread_sigmask(SIG_SETMASK, &all, &before);
    int error = pthread_create(&second, NULL, do_works, NULL);
    pthread_sigmask(SIG_SETMASK, &before, NULL);
    if (error)
        fail("no thread can be started: %s", strerror(error));
    pthread_mutex_lock(&apart_of.lock);
    while (!apart_of.second)
        pthread_cond_wait(&apart_of.changed, &apart_of.lock);
    pthread_mutex_unlock(&apart_of.lock);
}

static bool is_tracer(void)
{
    return !apart_of.second || pthread_equal(pthread_self(), apart_of.tracer);
}

pid_t second_thread(void)
{
    return apart_of.second;
}

/* Has the work done by the second thread, which may itself call this. */
void apart(void (*work)(void *argument), void *argument)
{
    if (!apart_of.second || !is_tracer()) {
        work(argument);
        return;
    }
    pthread_mutex_lock(&apart_of.lock);
    apart_of.argument = argument;
    apart_of.work = work;
    pthread_cond_broadcast(&apart_of.changed);
    wait_for_second();
    pthread_mutex_unlock(&apart_of.lock);
}

/* Leaves a fault to the tracer, unless this is it: only the tracer can let the threads go on. */
void leave_to_tracer(const char *fault)
{
    if (is_tracer())
        return;
    pthread_mutex_lock(&apart_of.lock);
    apart_of.fault = fault;
    pthread_cond_broadcast(&apart_of.changed);
    pthread_mutex_unlock(&apart_of.lock);
    for (;;)
        pause();
}
