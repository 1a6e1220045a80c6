/* threads.c: 8 threads that send and receive at once by one descriptor, and calls that block together. */
#include "case.h"

enum { EACH = 100, SENDERS = 4, RECEIVERS = 4 };
static mqd_t q;
static char seen[SENDERS * EACH];
static int twice, ill;
static pthread_mutex_t tally = PTHREAD_MUTEX_INITIALIZER;

static void *send_all(void *arg)
{
    for (int i = 0; i < EACH; i++) {
        int number = (int)(long)arg * EACH + i;
        if (mq_send(q, (char *)&number, sizeof number, (unsigned)(i % 3)) < 0) return (void *)-1;
    }
    return NULL;
}

static void *receive_share(void *arg)
{
    for (int i = 0; i < SENDERS * EACH / RECEIVERS; i++) {
        int number;
        if (mq_receive(q, (char *)&number, sizeof number, NULL) != sizeof number) return (void *)-1;
        pthread_mutex_lock(&tally);
        if (number < 0 || number >= SENDERS * EACH) ill++;
        else twice += seen[number]++;
        pthread_mutex_unlock(&tally);
    }
    return arg;
}

static void all_at_once(void)
{
    pthread_t threads[SENDERS + RECEIVERS];
    long failed = 0, missing = 0;
    q = new_queue("/threads", 5, sizeof(int));
    for (long i = 0; i < SENDERS; i++) pthread_create(&threads[i], NULL, send_all, (void *)i);
    for (int i = SENDERS; i < SENDERS + RECEIVERS; i++) pthread_create(&threads[i], NULL, receive_share, NULL);
    for (int i = 0; i < SENDERS + RECEIVERS; i++) {
        void *r;
        pthread_join(threads[i], &r);
        failed += r != NULL;
    }
    for (int i = 0; i < SENDERS * EACH; i++) missing += !seen[i];
    say("messages", SENDERS * EACH);
    say("threads that failed", failed);
    say("lost", missing);
    say("twice", twice);
    say("ill", ill);
    SHOW(mq_close(q) | mq_unlink("/threads"));
}

static void *take(void *arg)
{
    char data[16];
    (void)arg;
    return (void *)(long)mq_receive(q, data, sizeof data, NULL);
}

static void *give(void *arg) { return (void *)(long)mq_send(q, arg, strlen(arg), 1); }

static void show_joined(const char *what, pthread_t *threads, int count)
{
    long sum = 0;
    for (int i = 0; i < count; i++) {
        void *r;
        pthread_join(threads[i], &r);
        sum += (long)r;
    }
    say(what, sum);
}

static void blocked_together(void)
{
    pthread_t threads[6];
    struct mq_attr a;
    char data[16];
    q = new_queue("/together", 2, 16);
    for (int i = 0; i < 6; i++) pthread_create(&threads[i], NULL, take, NULL);
    pause_ms(200);
    for (int i = 0; i < 6; i++) SHOW(mq_send(q, "abc", 3, 0));
    show_joined("bytes received", threads, 6);
    for (int i = 0; i < 5; i++) pthread_create(&threads[i], NULL, give, "ab");
    pause_ms(200);
    mq_getattr(q, &a);
    say("messages", a.mq_curmsgs);
    for (int i = 0; i < 5; i++) SHOW(mq_receive(q, data, 16, NULL));
    show_joined("sends that failed", threads, 5);
    SHOW(mq_unlink("/together"));
    for (int i = 0; i < 2; i++) pthread_create(&threads[i], NULL, take, NULL);
    pause_ms(100);
    for (int i = 0; i < 2; i++) SHOW(mq_send(q, "a", 1, 0));
    show_joined("received after the unlink", threads, 2);
    SHOW(mq_close(q));
}

/* Opens and closes of the same names by several threads. */
static void *churn(void *arg)
{
    long failed = 0;
    char name[32], data[8];
    struct mq_attr one = { .mq_maxmsg = 1, .mq_msgsize = 8 };
    snprintf(name, sizeof name, "/churn%ld", (long)arg);
    for (int i = 0; i < 15; i++) {
        mqd_t m = mq_open(name, O_RDWR | O_CREAT, 0600, &one);
        sem_t *s = sem_open(name, O_CREAT, 0600, 1);
        failed += m == (mqd_t)-1 || s == SEM_FAILED;
        failed += mq_send(m, "1", 1, 0) != 0 || mq_receive(m, data, 8, NULL) != 1;
        failed += sem_wait(s) != 0 || sem_post(s) != 0;
        failed += sem_close(s) != 0 || mq_close(m) != 0;
    }
    failed += mq_unlink(name) != 0 || sem_unlink(name) != 0;
    return (void *)failed;
}

int main(void)
{
    pthread_t threads[4];
    all_at_once();
    blocked_together();
    for (long i = 0; i < 4; i++) pthread_create(&threads[i], NULL, churn, (void *)i);
    show_joined("opens and closes that failed", threads, 4);
    return 0;
}
