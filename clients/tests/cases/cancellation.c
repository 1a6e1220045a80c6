/* cancellation.c: a thread is cancelled while a call of it blocks, or before one. */
#include "case.h"

#include <stdatomic.h>

static mqd_t q;
static sem_t *s;
static atomic_int is_cancelled;

static void *receive(void *arg)
{
    char data[16];
    mq_receive(q, data, sizeof data, NULL);
    return arg;
}

static void *receive_timed(void *arg)
{
    char data[16];
    struct timespec until = in_ms(20000);
    mq_timedreceive(q, data, sizeof data, NULL, &until);
    return arg;
}

static void *wait_once(void *arg)
{
    sem_wait(s);
    return arg;
}

static void *send_to_full(void *arg)
{
    mq_send(q, "late", 4, 0);
    return arg;
}

static void *receive_when_cancelled(void *arg)
{
    char data[16];
    int old;
    pthread_setcancelstate(PTHREAD_CANCEL_DISABLE, &old);
    while (!is_cancelled) pause_ms(10);
    pthread_setcancelstate(PTHREAD_CANCEL_ENABLE, &old);
    mq_receive(q, data, sizeof data, NULL);   /* a message is there */
    return arg;
}

static void *send_timed(void *arg)
{
    struct timespec until = in_ms(20000);
    mq_timedsend(q, "late", 4, 0, &until);
    return arg;
}

static void *wait_timed(void *arg)
{
    struct timespec until = in_ms(20000);
    sem_timedwait(s, &until);
    return arg;
}

static void *receive_timed_when_cancelled(void *arg)
{
    char data[16];
    int old;
    struct timespec until = in_ms(20000);
    pthread_setcancelstate(PTHREAD_CANCEL_DISABLE, &old);
    while (!is_cancelled) pause_ms(10);
    pthread_setcancelstate(PTHREAD_CANCEL_ENABLE, &old);
    mq_timedreceive(q, data, sizeof data, NULL, &until);   /* a message is there */
    return arg;
}

static void cancel(const char *what, void *(*f)(void *))
{
    pthread_t thread;
    void *r;
    is_cancelled = 0;
    pthread_create(&thread, NULL, f, NULL);
    pause_ms(100);
    pthread_cancel(thread);
    is_cancelled = 1;
    pthread_join(thread, &r);
    say(what, r == PTHREAD_CANCELED);
}

int main(void)
{
    char data[16];
    struct mq_attr a;
    q = new_queue("/cancel", 1, 16);
    s = new_semaphore("/cancel", 0);
    cancel("receive cancelled", receive);
    cancel("timed receive cancelled", receive_timed);
    SHOW(mq_send(q, "a", 1, 0));
    cancel("send cancelled", send_to_full);
    cancel("timed send cancelled", send_timed);
    cancel("receive cancelled before it began", receive_when_cancelled);
    cancel("timed receive cancelled before it began", receive_timed_when_cancelled);
    mq_getattr(q, &a);
    say("messages", a.mq_curmsgs);
    SHOW(mq_receive(q, data, 16, NULL));
    cancel("wait cancelled", wait_once);
    cancel("timed wait cancelled", wait_timed);
    SHOW(sem_post(s));
    SHOW(sem_trywait(s));
    SHOW(mq_close(q) | mq_unlink("/cancel"));
    SHOW(sem_close(s) | sem_unlink("/cancel"));
    return 0;
}
