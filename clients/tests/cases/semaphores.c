/* semaphores.c: values, and unnamed semaphores beside named ones. */
#include "case.h"

static int value_of(sem_t *s)
{
    int value = -99;
    return sem_getvalue(s, &value) < 0 ? -1 : value;
}

static void *wait_once(void *s) { return (void *)(long)sem_wait(s); }

static void values(void)
{
    sem_t *s = new_semaphore("/values", 2), *full = new_semaphore("/full", SEM_VALUE_MAX);
    SHOW(value_of(s));
    SHOW(sem_wait(s));
    SHOW(sem_trywait(s));
    SHOW(sem_trywait(s));
    SHOW(value_of(s));
    SHOW(sem_post(s));
    SHOW(sem_post(s));
    SHOW(value_of(s));
    SHOW(value_of(full));
    SHOW(sem_post(full));
    SHOW(value_of(full));
    SHOW(sem_close(full) | sem_unlink("/full"));
    SHOW(sem_close(s));
    SHOW_SEM(s, sem_open("/values", 0));
    SHOW(value_of(s));
    SHOW(sem_close(s) | sem_unlink("/values"));
}

static void waiters(void)
{
    sem_t *s = new_semaphore("/waiters", 0);
    pthread_t threads[5];
    long failed = 0;
    for (int i = 0; i < 5; i++) pthread_create(&threads[i], NULL, wait_once, s);
    pause_ms(200);
    SHOW(value_of(s));
    for (int i = 0; i < 5; i++) SHOW(sem_post(s));
    for (int i = 0; i < 5; i++) {
        void *r;
        pthread_join(threads[i], &r);
        failed += r != NULL;
    }
    say("waits that failed", failed);
    SHOW(value_of(s));
    SHOW(sem_close(s) | sem_unlink("/waiters"));
}

static void unnamed(void)
{
    sem_t s;
    struct timespec past = { 1, 0 };
    SHOW(sem_init(&s, 0, 1));
    SHOW(sem_wait(&s));
    SHOW(sem_trywait(&s));
    SHOW(sem_timedwait(&s, &past));
    SHOW(sem_post(&s));
    SHOW(value_of(&s));
    SHOW(sem_destroy(&s));
}

int main(void)
{
    values();
    waiters();
    unnamed();
    return 0;
}
