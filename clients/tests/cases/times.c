/* times.c: timed calls, and which of their faults is seen first. */
#include "case.h"

static char data[16];
static struct timespec past = { 1, 0 }, odd = { 0, 1000000000 }, negative = { 0, -1 }, before_1970 = { -1, 0 };

/* Whether the call failed with ETIMEDOUT at its moment, and not much later. */
#define SHOW_LATE(ms, call) do { \
        double start = seconds(); \
        struct timespec until = in_ms(ms); \
        long r = (call); \
        double took = seconds() - start; \
        show(#call, r); \
        say("in time", took > (ms) / 1e3 - 0.001 && took < (ms) / 1e3 + 1); \
    } while (0)

static void queues(void)
{
    mqd_t q = new_queue("/times", 1, 16), closed = new_queue("/times2", 1, 16);
    mq_close(closed);
    mq_unlink("/times2");
    SHOW_LATE(200, mq_timedreceive(q, data, 16, NULL, &until));
    SHOW(mq_timedreceive(q, data, 16, NULL, &past));
    SHOW(mq_timedreceive(q, data, 16, NULL, &odd));
    SHOW(mq_timedreceive(q, data, 16, NULL, &negative));
    SHOW(mq_timedreceive(q, data, 16, NULL, &before_1970));
    SHOW(mq_timedreceive(q, data, 15, NULL, &odd));
    SHOW(mq_timedreceive(closed, data, 16, NULL, &odd));
    SHOW(mq_timedreceive(closed, data, 16, NULL, &past));
    SHOW(mq_timedsend(q, "a", 1, 0, &odd));
    SHOW(mq_timedsend(q, "a", 1, 0, &before_1970));
    SHOW(mq_timedsend(q, "a", 1, 0, &past));
    SHOW(mq_timedsend(q, "b", 1, 0, &past));
    SHOW(mq_timedsend(q, "b", 1, 0, &odd));
    SHOW(mq_timedsend(q, "b", 1, 40000, &past));
    SHOW(mq_timedsend(closed, "b", 1, 0, &odd));
    SHOW_LATE(200, mq_timedsend(q, "b", 1, 0, &until));
    SHOW(mq_timedreceive(q, data, 16, NULL, &odd));
    SHOW(mq_timedreceive(q, data, 16, NULL, &past));
    SHOW(mq_timedreceive(q, data, 16, NULL, &past));
    SHOW(mq_close(q) | mq_unlink("/times"));
}

static void *post_later(void *s)
{
    pause_ms(200);
    sem_post(s);
    return NULL;
}

static struct timespec monotonic_in_ms(long ms)
{
    struct timespec t;
    clock_gettime(CLOCK_MONOTONIC, &t);
    t.tv_sec += ms / 1000;
    t.tv_nsec += ms % 1000 * 1000000;
    if (t.tv_nsec >= 1000000000) {
        t.tv_nsec -= 1000000000;
        t.tv_sec++;
    }
    return t;
}

static void semaphores(void)
{
    sem_t *s = new_semaphore("/times", 1);
    pthread_t thread;
    SHOW(sem_timedwait(s, &odd));
    SHOW(sem_timedwait(s, &past));
    SHOW(sem_timedwait(s, &past));
    SHOW(sem_timedwait(s, &odd));
    SHOW(sem_timedwait(s, &before_1970));
    SHOW_LATE(200, sem_timedwait(s, &until));
    SHOW_LATE(200, (until = monotonic_in_ms(200), sem_clockwait(s, CLOCK_MONOTONIC, &until)));
    SHOW_LATE(200, sem_clockwait(s, CLOCK_REALTIME, &until));
    SHOW(sem_clockwait(s, CLOCK_PROCESS_CPUTIME_ID, &past));
    SHOW(sem_clockwait(s, CLOCK_MONOTONIC, &odd));
    pthread_create(&thread, NULL, post_later, s);
    struct timespec until = in_ms(10000);
    SHOW(sem_timedwait(s, &until));
    pthread_join(thread, NULL);
    SHOW(sem_close(s) | sem_unlink("/times"));
}

int main(void)
{
    queues();
    semaphores();
    return 0;
}
