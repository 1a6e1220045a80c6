/* manual_sem_wait.c: what the example of sem_wait(3) shows, with a named semaphore: an alarm's handler posts while a timed
 * wait blocks; and a wait that nobody ends in time. */
#include "case.h"

static sem_t *s;

static void post(int signal)
{
    (void)signal;
    if (sem_post(s) == -1) _exit(1);
}

static void wait_with(long alarm_ms, long wait_ms)
{
    struct timespec until = in_ms(wait_ms);
    int r;
    alarm_each(alarm_ms);
    while ((r = sem_timedwait(s, &until)) == -1 && errno == EINTR);
    alarm_each(0);
    if (r == -1) printf("sem_timedwait: %s\n", errno == ETIMEDOUT ? "timed out" : strerror(errno));
    else printf("sem_timedwait succeeded\n");
}

int main(void)
{
    s = new_semaphore("/manual", 0);
    handle(SIGALRM, post, 0);
    wait_with(200, 10000);
    wait_with(10000, 200);
    sem_unlink("/manual");
    return 0;
}
