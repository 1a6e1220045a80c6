/* signals.c: what a signal does to a call that blocks. */
#include "case.h"

static mqd_t q;
static sem_t *s;
static char data[16];
static volatile sig_atomic_t hits;

static void count(int signal)
{
    (void)signal;
    hits++;
}

static void post(int signal)
{
    (void)signal;
    hits++;
    sem_post(s);
}

static void *send_later(void *arg)
{
    pause_ms(500);
    mq_send(q, "x", 1, 0);
    return arg;
}

static void *post_later(void *arg)
{
    pause_ms(500);
    sem_post(s);
    return arg;
}

static void *receive_later(void *arg)
{
    static char taken[16];
    pause_ms(500);
    mq_receive(q, taken, sizeof taken, NULL);
    return arg;
}

static pthread_t helper(void *(*f)(void *))
{
    pthread_t thread;
    sigset_t mask, old;
    sigemptyset(&mask);
    sigaddset(&mask, SIGALRM);
    pthread_sigmask(SIG_BLOCK, &mask, &old);   /* the signals are for the thread that blocks */
    pthread_create(&thread, NULL, f, NULL);
    pthread_sigmask(SIG_SETMASK, &old, NULL);
    return thread;
}

/* A call that blocks while signals come, until the helper serves it or the first signal ends it. */
#define DISTURB(f, call) do { \
        pthread_t thread = helper(f); \
        alarm_each(50); \
        hits = 0; \
        SHOW(call); \
        alarm_each(0); \
        say("signals came", hits > 0); \
        pthread_join(thread, NULL); \
    } while (0)

static void *nothing(void *arg) { return arg; }

static void ended(void)
{
    struct timespec until = in_ms(20000);
    struct mq_attr a;
    handle(SIGALRM, count, 0);
    DISTURB(nothing, mq_receive(q, data, 16, NULL));
    DISTURB(nothing, mq_timedreceive(q, data, 16, NULL, &until));
    DISTURB(nothing, sem_wait(s));
    DISTURB(nothing, sem_timedwait(s, &until));
    mq_send(q, "full", 4, 0);
    DISTURB(nothing, mq_send(q, "x", 1, 0));
    DISTURB(nothing, mq_timedsend(q, "x", 1, 0, &until));
    mq_getattr(q, &a);
    say("messages", a.mq_curmsgs);
    SHOW(mq_receive(q, data, 16, NULL));
}

static void restarted(void)
{
    handle(SIGALRM, count, SA_RESTART);
    DISTURB(send_later, mq_receive(q, data, 16, NULL));
    DISTURB(post_later, sem_wait(s));
    mq_send(q, "full", 4, 0);
    DISTURB(receive_later, mq_send(q, "x", 1, 0));
    SHOW(mq_receive(q, data, 16, NULL));
}

/* With a moment as well. What the first signal ended leaves something for the next call to take. */
static void timed_and_restarted(void)
{
    struct timespec until = in_ms(20000);
    DISTURB(send_later, mq_timedreceive(q, data, 16, NULL, &until));
    DISTURB(post_later, sem_timedwait(s, &until));
    struct timespec past = { 1, 0 };
    mq_timedreceive(q, data, 16, NULL, &past);
    sem_trywait(s);
    until = in_ms(500);
    DISTURB(nothing, mq_timedreceive(q, data, 16, NULL, &until));
    mq_send(q, "full", 4, 0);
    until = in_ms(20000);
    DISTURB(receive_later, mq_timedsend(q, "x", 1, 0, &until));
    until = in_ms(500);
    DISTURB(nothing, mq_timedsend(q, "y", 1, 0, &until));
    SHOW(mq_receive(q, data, 16, NULL));
}

static void posted_by_handler(void)
{
    struct timespec until = in_ms(20000);
    long r;
    handle(SIGALRM, post, SA_RESTART);
    alarm_each(100);
    SHOW(sem_wait(s));
    while ((r = sem_timedwait(s, &until)) == -1 && errno == EINTR);
    alarm_each(0);
    show("posted by its own handler", r);
}

static void *signal_later(void *thread)
{
    pause_ms(300);
    pthread_kill(*(pthread_t *)thread, SIGRTMIN);
    return NULL;
}

/* A real-time signal alone. */
static void in_real_time(void)
{
    pthread_t own = pthread_self(), thread;
    struct timespec until = in_ms(3000);
    handle(SIGRTMIN, count, 0);
    hits = 0;
    pthread_create(&thread, NULL, signal_later, &own);
    SHOW(mq_timedreceive(q, data, 16, NULL, &until));
    pthread_join(thread, NULL);
    say("signals came", hits);
}

int main(void)
{
    q = new_queue("/signals", 1, 16);
    s = new_semaphore("/signals", 0);
    ended();
    restarted();
    timed_and_restarted();
    posted_by_handler();
    in_real_time();
    SHOW(mq_close(q) | mq_unlink("/signals"));
    SHOW(sem_close(s) | sem_unlink("/signals"));
    return 0;
}
