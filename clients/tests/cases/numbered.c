/* numbered.c: signals at random moments, while numbered messages pass and semaphores are posted. A call that a signal or its
 * moment ends must have had no effect: nothing is lost, and nothing comes twice. */
#include "case.h"

#include <stdatomic.h>

enum { MESSAGES = 300, SENDERS = 3, RECEIVERS = 3, EACH = MESSAGES / SENDERS };
static mqd_t q;
static sem_t *s;
static atomic_int taken, posted, waited, ill, is_over, endings;
static atomic_uchar seen[MESSAGES];

static void nothing(int signal) { (void)signal; }

/* A few calls have a moment, which comes just then. */
static int may_end(long r)
{
    if (r >= 0 || (errno != EINTR && errno != ETIMEDOUT)) return 0;
    endings++;
    return 1;
}

static void *send_share(void *arg)
{
    unsigned seed = (unsigned)(long)arg + 1;
    for (int i = 0; i < EACH; i++) {
        int number = (int)(long)arg * EACH + i;
        while (!is_over) {
            struct timespec until = in_ms(i % 2 ? 1000 : rand_r(&seed) % 3);
            long r = mq_timedsend(q, (char *)&number, sizeof number, 0, &until);
            if (may_end(r)) continue;
            ill += r != 0;
            break;
        }
        posted += sem_post(s) == 0;
    }
    return NULL;
}

static void *receive_share(void *arg)
{
    unsigned seed = (unsigned)(long)arg + 99;
    while (taken < MESSAGES && !is_over) {
        int number = -1;
        struct timespec until = in_ms(rand_r(&seed) % 3);
        long r = mq_timedreceive(q, (char *)&number, sizeof number, NULL, &until);
        if (may_end(r)) continue;
        if (r != sizeof number || number < 0 || number >= MESSAGES) {
            ill++;
            break;
        }
        seen[number]++;
        taken++;
    }
    return NULL;
}

static void *wait_share(void *arg)
{
    unsigned seed = (unsigned)(long)arg + 199;
    while (waited < MESSAGES && !is_over) {
        struct timespec until = in_ms(rand_r(&seed) % 3);
        long r = sem_timedwait(s, &until);
        if (may_end(r)) continue;
        ill += r != 0;
        waited++;
    }
    return NULL;
}

static void disturb(pthread_t *threads, int count)
{
    unsigned seed = 7;
    double start = seconds();
    while ((taken < MESSAGES || waited < MESSAGES) && seconds() - start < 90) {
        pthread_kill(threads[rand_r(&seed) % (unsigned)count], SIGUSR1);
        struct timespec t = { 0, rand_r(&seed) % 1000000 };
        nanosleep(&t, NULL);
    }
    is_over = 1;
}

int main(void)
{
    pthread_t threads[SENDERS + 2 * RECEIVERS];
    int lost = 0, twice = 0, value;
    handle(SIGUSR1, nothing, 0);
    q = new_queue("/numbered", 3, sizeof(int));
    s = new_semaphore("/numbered", 0);
    for (long i = 0; i < RECEIVERS; i++) pthread_create(&threads[SENDERS + i], NULL, receive_share, (void *)i);
    for (long i = 0; i < RECEIVERS; i++) pthread_create(&threads[SENDERS + RECEIVERS + i], NULL, wait_share, (void *)i);
    for (long i = 0; i < SENDERS; i++) pthread_create(&threads[i], NULL, send_share, (void *)i);
    disturb(threads + SENDERS, 2 * RECEIVERS);
    for (int i = 0; i < SENDERS + 2 * RECEIVERS; i++) pthread_join(threads[i], NULL);
    for (int i = 0; i < MESSAGES; i++) {
        lost += seen[i] == 0;
        twice += seen[i] > 1;
    }
    sem_getvalue(s, &value);
    say("messages", MESSAGES);
    say("lost", lost);
    say("twice", twice);
    say("posts", posted);
    say("waits and what is left", waited + value);
    say("ill", ill);
    say("calls were ended", endings > 0);
    SHOW(mq_close(q) | mq_unlink("/numbered"));
    SHOW(sem_close(s) | sem_unlink("/numbered"));
    return 0;
}
