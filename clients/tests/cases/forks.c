/* forks.c: children use what their parent opened. */
#include "case.h"

static mqd_t q;
static sem_t *s;
static char data[16];

static void children_use_all(void)
{
    struct timespec until = in_ms(10000);
    for (int i = 0; i < 3; i++)
        if (fork() == 0) _exit((sem_wait(s) | mq_send(q, "child", 5, 0)) != 0);
    for (int i = 0; i < 3; i++) SHOW(sem_post(s));
    for (int i = 0; i < 3; i++) SHOW(mq_timedreceive(q, data, 16, NULL, &until));
    for (int i = 0; i < 3; i++) say("child", end_of_child());
}

/* Parent and child block on each other in turn. */
static void in_turn(void)
{
    mqd_t back = new_queue("/forks2", 1, 16);
    long sum = 0;
    if (fork() == 0) {
        for (int i = 0; i < 50; i++)
            if (mq_receive(q, data, 16, NULL) != 4 || mq_send(back, "pong", 4, 0) != 0) _exit(1);
        _exit(0);
    }
    for (int i = 0; i < 50; i++) sum += mq_send(q, "ping", 4, 0) == 0 && mq_receive(back, data, 16, NULL) == 4;
    say("rounds", sum);
    say("child", end_of_child());
    SHOW(mq_close(back) | mq_unlink("/forks2"));
}

static void one_open_description(void)
{
    struct mq_attr nonblock = { .mq_flags = O_NONBLOCK }, block = { 0 };
    if (fork() == 0) _exit(mq_setattr(q, &nonblock, NULL) != 0);
    say("child", end_of_child());
    SHOW(mq_receive(q, data, 16, NULL));
    SHOW(mq_setattr(q, &block, NULL));
    if (fork() == 0) _exit(mq_close(q) | sem_close(s));
    say("child", end_of_child());
    SHOW(mq_send(q, "x", 1, 0));
    SHOW(mq_receive(q, data, 16, NULL));
    SHOW(sem_post(s));
    SHOW(sem_trywait(s));
}

static void *receive_once(void *arg)
{
    char taken[16];
    return mq_receive(q, taken, sizeof taken, NULL) == 3 ? arg : NULL;
}

static void *wait_once(void *arg) { return sem_wait(arg) == 0 ? arg : NULL; }

static void give_turn(int to[2])
{
    if (write(to[1], "", 1) != 1) exit(2);
}

static void await_turn(int from[2])
{
    char byte;
    if (read(from[0], &byte, 1) != 1) exit(2);
}

static void close_and_open(sem_t *old, int parent[2], int child[2])
{
    struct sigevent none = { .sigev_notify = SIGEV_NONE };
    int value;
    sem_t *again;
    SHOW(mq_notify(q, &none));
    SHOW(sem_getvalue(old, &value));
    SHOW(mq_close(q) | sem_close(old));
    give_turn(parent);
    await_turn(child);
    SHOW_SEM(again, sem_open("/forks3", 0));
    SHOW(sem_getvalue(again, &value));
    say("value", value);
    _exit(0);
}

/* Threads wait in the parent. What the child closes is closed there all the same, and the registration with it. */
static void closed_in_child(void)
{
    int parent[2], child[2];
    struct sigevent none = { .sigev_notify = SIGEV_NONE };
    sem_t *old = new_semaphore("/forks3", 0), *new;
    pthread_t receiver, waiter;
    void *is_served;
    if (pipe(parent) < 0 || pipe(child) < 0) exit(2);
    pthread_create(&receiver, NULL, receive_once, old);
    pthread_create(&waiter, NULL, wait_once, old);
    pause_ms(200);
    fflush(stdout);
    if (fork() == 0) close_and_open(old, parent, child);
    await_turn(parent);
    SHOW(mq_notify(q, &none));
    SHOW(mq_notify(q, NULL));
    SHOW(sem_unlink("/forks3"));
    SHOW_SEM(new, sem_open("/forks3", O_CREAT | O_EXCL, 0600, 5));
    give_turn(child);
    say("child", end_of_child());
    SHOW(mq_send(q, "xyz", 3, 0) | sem_post(old));
    pthread_join(receiver, &is_served);
    say("received", is_served == old);
    pthread_join(waiter, &is_served);
    say("posted", is_served == old);
    SHOW(sem_close(old) | sem_close(new) | sem_unlink("/forks3"));
}

/* exec closes queues; the mqd_t is no file there. */
static void after_exec(char *self)
{
    char number[16];
    snprintf(number, sizeof number, "%d", (int)q);
    fflush(stdout);
    if (fork() == 0) {
        execl("/proc/self/exe", self, number, (char *)NULL);     /* its user may not get there by its path */
        _exit(9);
    }
    say("child", end_of_child());
}

static void grandchild(void)
{
    if (fork() == 0) {
        if (fork() == 0) _exit(mq_send(q, "grandchild", 10, 0) != 0);
        _exit(end_of_child());
    }
    SHOW(mq_receive(q, data, 16, NULL));
    say("child", end_of_child());
}

/* The first child has what its parent opened, also when the names are gone; a further one is in the case `unlinked`. */
static void after_unlink(void)
{
    SHOW(mq_unlink("/forks") | sem_unlink("/forks"));
    fflush(stdout);
    if (fork() == 0) _exit((sem_wait(s) | mq_send(q, "child", 5, 0)) != 0);
    SHOW(sem_post(s));
    SHOW(mq_receive(q, data, 16, NULL));
    say("child", end_of_child());
    SHOW(mq_close(q) | sem_close(s));
}

int main(int argc, char **argv)
{
    if (argc > 1) {
        struct mq_attr a;
        SHOW(mq_getattr(atoi(argv[1]), &a));
        return 0;
    }
    q = new_queue("/forks", 4, 16);
    s = new_semaphore("/forks", 0);
    children_use_all();
    in_turn();
    one_open_description();
    closed_in_child();
    after_exec(argv[0]);
    grandchild();
    after_unlink();
    return 0;
}
