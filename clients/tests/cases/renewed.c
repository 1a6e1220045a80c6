/* renewed.c: a name is unlinked and created anew, while the object that had it first is still open: a child of fork and threads that wait
 * have the old one by the old handle. */
#include "case.h"

static sem_t *old_s, *new_s;
static mqd_t old_q, new_q;

static void *wait_for_old(void *arg)
{
    struct timespec until = in_ms(20000);
    return sem_timedwait(old_s, &until) == 0 ? arg : NULL;
}

static void show_messages(const char *what, mqd_t q)
{
    struct mq_attr a = { 0 };
    mq_getattr(q, &a);
    say(what, a.mq_curmsgs);
}

static void show_value(const char *what, sem_t *s)
{
    int value = -1;
    sem_getvalue(s, &value);
    say(what, value);
}

/* Two threads wait at once, which takes two connections on a server. */
static void two_wait(void)
{
    pthread_t threads[2];
    int served = 0;
    for (int i = 0; i < 2; i++) pthread_create(&threads[i], NULL, wait_for_old, &served);
    pause_ms(200);
    show_value("the new semaphore", new_s);
    for (int i = 0; i < 2; i++) SHOW(sem_post(old_s));
    for (int i = 0; i < 2; i++) {
        void *r;
        pthread_join(threads[i], &r);
        served += r == &served;
    }
    say("served", served);
    show_value("the new semaphore", new_s);
    show_value("the old semaphore", old_s);
}

static void in_child(void)
{
    fflush(stdout);
    if (fork() == 0) {
        SHOW(sem_trywait(old_s));
        SHOW(mq_send(old_q, "child", 5, 0));
        _exit(0);
    }
    say("child", end_of_child());
    show_value("the new semaphore", new_s);
    show_messages("in the new queue", new_q);
    show_messages("in the old queue", old_q);
}

int main(void)
{
    old_s = new_semaphore("/renewed", 0);
    old_q = new_queue("/renewed", 4, 16);
    SHOW(sem_unlink("/renewed") | mq_unlink("/renewed"));
    new_s = new_semaphore("/renewed", 5);
    new_q = new_queue("/renewed", 4, 16);
    two_wait();
    in_child();
    SHOW(sem_close(old_s) | mq_close(old_q));
    SHOW(sem_close(new_s) | mq_close(new_q));
    SHOW(sem_unlink("/renewed") | mq_unlink("/renewed"));
    return 0;
}
