/* case.h: what the cases share. A case prints one line an outcome, and the same lines on the kernel's queues as on a server. */
#ifndef CASE_H
#define CASE_H

#include <errno.h>
#include <fcntl.h>
#include <limits.h>
#include <mqueue.h>
#include <pthread.h>
#include <semaphore.h>
#include <signal.h>
#include <stdio.h>
#include <stdlib.h>
#include <string.h>
#include <sys/stat.h>
#include <sys/time.h>
#include <sys/wait.h>
#include <time.h>
#include <unistd.h>

/* The call's text and its result, with the error's name where it is -1. */
#define SHOW(call) show(#call, (long)(call))
/* The same, where a success has a number that says nothing. */
#define SHOW_OPEN(queue, call) do { queue = (call); show(#call, queue == (mqd_t)-1 ? -1 : 0); } while (0)
#define SHOW_SEM(sem, call) do { sem = (call); show(#call, sem == SEM_FAILED ? -1 : 0); } while (0)

__attribute__((unused)) static long show(const char *what, long result)
{
    int error = errno;
    if (result == -1) printf("%s: %s\n", what, strerrorname_np(error));
    else printf("%s: %ld\n", what, result);
    fflush(stdout);   /* a child of fork would print again what stands in the buffer */
    return result;
}

__attribute__((unused)) static void say(const char *what, long value)
{
    printf("%s: %ld\n", what, value);
    fflush(stdout);
}

__attribute__((unused)) static struct timespec in_ms(long ms)
{
    struct timespec t;
    clock_gettime(CLOCK_REALTIME, &t);
    t.tv_nsec += ms % 1000 * 1000000;
    t.tv_sec += ms / 1000 + t.tv_nsec / 1000000000;
    t.tv_nsec %= 1000000000;
    return t;
}

__attribute__((unused)) static void pause_ms(long ms)
{
    struct timespec t = { ms / 1000, ms % 1000 * 1000000 };
    while (nanosleep(&t, &t) < 0 && errno == EINTR);
}

__attribute__((unused)) static double seconds(void)
{
    struct timespec t;
    clock_gettime(CLOCK_MONOTONIC, &t);
    return (double)t.tv_sec + (double)t.tv_nsec / 1e9;
}

/* A new queue of this name. */
__attribute__((unused)) static mqd_t new_queue(const char *name, long messages, long size)
{
    struct mq_attr attributes = { .mq_maxmsg = messages, .mq_msgsize = size };
    mq_unlink(name);
    mqd_t q = mq_open(name, O_RDWR | O_CREAT | O_EXCL, 0600, &attributes);
    if (q == (mqd_t)-1) {
        printf("no queue %s: %s\n", name, strerrorname_np(errno));
        exit(2);
    }
    return q;
}

__attribute__((unused)) static sem_t *new_semaphore(const char *name, unsigned value)
{
    sem_unlink(name);
    sem_t *s = sem_open(name, O_CREAT | O_EXCL, 0600, value);
    if (s == SEM_FAILED) {
        printf("no semaphore %s: %s\n", name, strerrorname_np(errno));
        exit(2);
    }
    return s;
}

__attribute__((unused)) static void handle(int signal, void (*handler)(int), int flags)
{
    struct sigaction action = { .sa_handler = handler, .sa_flags = flags };
    sigaction(signal, &action, NULL);
}

/* A signal every so many milliseconds; 0 ends that. */
__attribute__((unused)) static void alarm_each(long ms)
{
    struct itimerval each = { { ms / 1000, ms % 1000 * 1000 }, { ms / 1000, ms % 1000 * 1000 } };
    setitimer(ITIMER_REAL, &each, NULL);
}

__attribute__((unused)) static int end_of_child(void)
{
    int status;
    wait(&status);
    return WIFEXITED(status) ? WEXITSTATUS(status) : 1000 + WTERMSIG(status);
}
#endif
