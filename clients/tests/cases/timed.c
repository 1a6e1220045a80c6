/* timed.c: calls with a moment that is to come: among threads, by descriptors of each kind, in children and with notices. */
#include "case.h"

#include <stdint.h>

enum { EACH = 50, THREADS = 4 };
static mqd_t q;
static sem_t *s;
static char data[16];
static const struct timespec never = { INT64_MAX, 999999999 };
static pthread_mutex_t tally = PTHREAD_MUTEX_INITIALIZER;
static int seen[THREADS * EACH];

/* ---- Many at once ---- */

static void *send_all(void *arg)
{
    for (int i = 0; i < EACH; i++) {
        struct timespec until = in_ms(60000);
        int number = (int)(long)arg * EACH + i;
        if (mq_timedsend(q, (char *)&number, sizeof number, (unsigned)(i % 3), &until) < 0) return (void *)1;
    }
    return NULL;
}

static void *receive_share(void *arg)
{
    (void)arg;
    for (int i = 0; i < EACH; i++) {
        struct timespec until = in_ms(60000);
        int number;
        if (mq_timedreceive(q, (char *)&number, sizeof number, NULL, &until) != sizeof number) return (void *)1;
        pthread_mutex_lock(&tally);
        seen[number]++;
        pthread_mutex_unlock(&tally);
    }
    return NULL;
}

static void *wait_and_post(void *arg)
{
    (void)arg;
    for (int i = 0; i < EACH; i++) {
        struct timespec until = in_ms(60000);
        if (sem_timedwait(s, &until) < 0 || sem_post(s) < 0) return (void *)1;
    }
    return NULL;
}

static void all_at_once(void)
{
    pthread_t threads[3 * THREADS];
    long failed = 0, once = 0;
    int value;
    q = new_queue("/timed", 3, sizeof(int));
    s = new_semaphore("/timed", 1);
    for (long i = 0; i < THREADS; i++) {
        pthread_create(&threads[3 * i], NULL, send_all, (void *)i);
        pthread_create(&threads[3 * i + 1], NULL, receive_share, NULL);
        pthread_create(&threads[3 * i + 2], NULL, wait_and_post, NULL);
    }
    for (int i = 0; i < 3 * THREADS; i++) {
        void *r;
        pthread_join(threads[i], &r);
        failed += r != NULL;
    }
    for (int i = 0; i < THREADS * EACH; i++) once += seen[i] == 1;
    sem_getvalue(s, &value);
    say("threads that failed", failed);
    say("messages that came once", once);
    say("value", value);
    SHOW(mq_close(q) | mq_unlink("/timed"));
}

/* ---- Calls that wait: of a queue in their order ---- */

/* Whether it gets the message of its own number. */
static void *receive_one(void *arg)
{
    struct timespec until = in_ms(60000);
    char taken[16] = "?";
    mq_timedreceive(q, taken, sizeof taken, NULL, &until);
    return (void *)(long)(taken[0] == (char)(long)arg);
}

static void *send_one(void *arg)
{
    char c = (char)(long)arg;
    mq_timedsend(q, &c, 1, 0, &never);
    return NULL;
}

static void *wait_one(void *arg)
{
    struct timespec until = in_ms(60000);
    (void)arg;
    return (void *)(long)(sem_timedwait(s, &until) == 0);
}

static void start_in_order(pthread_t *threads, void *(*f)(void *))
{
    for (long c = 'a'; c <= 'c'; c++) {
        pthread_create(&threads[c - 'a'], NULL, f, (void *)c);
        pause_ms(200);
    }
}

static long join_all(pthread_t *threads)
{
    long sum = 0;
    for (int i = 0; i < 3; i++) {
        void *r;
        pthread_join(threads[i], &r);
        sum += (long)r;
    }
    return sum;
}

static void in_order(void)
{
    pthread_t threads[3];
    q = new_queue("/timed", 1, 16);
    start_in_order(threads, receive_one);
    for (char c = 'a'; c <= 'c'; c++) mq_send(q, &c, 1, 0);
    say("receives that were served in order", join_all(threads));
    mq_send(q, "0", 1, 0);
    start_in_order(threads, send_one);
    for (int i = 0; i < 4; i++) {
        SHOW(mq_receive(q, data, 16, NULL));
        printf("message %c\n", data[0]);
    }
    join_all(threads);
    SHOW(sem_wait(s));
    start_in_order(threads, wait_one);
    for (int i = 0; i < 3; i++) SHOW(sem_post(s));
    say("waits that were served", join_all(threads));
    SHOW(mq_close(q) | mq_unlink("/timed"));
}

/* ---- By descriptors of each kind ---- */

static void descriptors(void)
{
    struct timespec far = in_ms(60000);
    struct mq_attr a = { .mq_flags = O_NONBLOCK };
    q = new_queue("/timed", 1, 16);
    mqd_t reader = mq_open("/timed", O_RDONLY), writer = mq_open("/timed", O_WRONLY | O_NONBLOCK), closed = mq_open("/timed", O_RDWR);
    SHOW(mq_close(closed));
    SHOW(mq_timedsend(reader, "x", 1, 0, &far));
    SHOW(mq_timedreceive(writer, data, 16, NULL, &far));
    SHOW(mq_timedreceive(closed, data, 16, NULL, &far));
    SHOW(mq_timedreceive(q, data, 15, NULL, &far));
    SHOW(mq_timedsend(q, "0123456789abcdefg", 17, 0, &far));
    SHOW(mq_timedsend(q, "x", 1, 32768, &far));
    SHOW(mq_setattr(reader, &a, NULL));
    SHOW(mq_timedreceive(reader, data, 16, NULL, &far));
    SHOW(mq_timedsend(writer, "one", 3, 7, &never));
    SHOW(mq_timedsend(writer, "two", 3, 0, &far));
    SHOW(mq_timedreceive(reader, data, 16, NULL, &never));
    a.mq_flags = 0;
    SHOW(mq_setattr(reader, &a, NULL));
    SHOW(mq_unlink("/timed"));
    SHOW(mq_timedsend(q, "three", 5, 0, &far));
    SHOW(mq_timedreceive(reader, data, 16, NULL, &far));
    far = in_ms(50);
    SHOW(mq_timedreceive(reader, data, 16, NULL, &far));
    SHOW(mq_close(reader) | mq_close(writer) | mq_close(q));
}

static void children(void)
{
    struct timespec far = in_ms(60000), soon;
    q = new_queue("/timed", 1, 16);
    if (fork() == 0) {
        SHOW(mq_timedreceive(q, data, 16, NULL, &far));
        soon = in_ms(50);
        SHOW(mq_timedreceive(q, data, 16, NULL, &soon));
        _exit(sem_timedwait(s, &far) != 0);
    }
    int failed = mq_timedsend(q, "x", 1, 0, &far);
    pause_ms(300);
    failed |= sem_post(s);
    say("child", end_of_child());
    say("sent and posted", failed);
    SHOW(mq_close(q) | mq_unlink("/timed"));
}

/* ---- Notices ---- */

static volatile sig_atomic_t hits;

static void on_notice(int signal)
{
    (void)signal;
    hits++;
}

static void *receive_far(void *arg) { return (void *)(long)(mq_timedreceive(q, arg, 16, NULL, &never)); }

static void notices(void)
{
    struct timespec far = in_ms(60000);
    struct sigevent event = { .sigev_notify = SIGEV_SIGNAL, .sigev_signo = SIGUSR1 };
    char taken[16];
    pthread_t thread;
    handle(SIGUSR1, on_notice, SA_RESTART);
    q = new_queue("/timed", 2, 16);
    SHOW(mq_notify(q, &event));
    SHOW(mq_timedsend(q, "x", 1, 0, &far));
    say("before mq_timedsend returned", hits);
    SHOW(mq_timedreceive(q, data, 16, NULL, &far));
    SHOW(mq_notify(q, &event));
    pthread_create(&thread, NULL, receive_far, taken);
    pause_ms(200);
    SHOW(mq_timedsend(q, "x", 1, 0, &far));
    pthread_join(thread, NULL);
    say("a receive was blocked", hits);
    SHOW(mq_timedsend(q, "x", 1, 0, &far));
    say("none was", hits);
    SHOW(mq_close(q) | mq_unlink("/timed"));
}

int main(void)
{
    all_at_once();
    in_order();
    descriptors();
    children();
    notices();
    SHOW(sem_close(s) | sem_unlink("/timed"));
    return 0;
}
