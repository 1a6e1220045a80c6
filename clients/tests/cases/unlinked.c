/* unlinked.c: several children of a parent that has unlinked the names, and another process that takes over a name. */
#include "case.h"

static mqd_t q;
static sem_t *s;
static char data[16];

static void three_children(void)
{
    q = new_queue("/unlinked", 4, 16);
    s = new_semaphore("/unlinked", 3);
    SHOW(mq_unlink("/unlinked") | sem_unlink("/unlinked"));
    for (int i = 0; i < 3; i++) {
        fflush(stdout);
        if (fork() == 0) _exit(mq_send(q, "child", 5, 0) < 0 ? 1 : sem_trywait(s) < 0 ? 2 : 0);
        say("child", end_of_child());
    }
    SHOW(mq_close(q) | sem_close(s));
}

/* Another process unlinks the names and makes others of them. What was opened stays what it was. */
static void taken_over(void)
{
    q = new_queue("/taken", 4, 16);
    s = new_semaphore("/taken", 0);
    fflush(stdout);
    if (fork() == 0) {
        if (mq_unlink("/taken") | sem_unlink("/taken")) _exit(1);
        mqd_t other = new_queue("/taken", 4, 16);
        if (other == (mqd_t)-1 || new_semaphore("/taken", 5) == SEM_FAILED) _exit(2);
        _exit(mq_send(other, "other", 5, 0) != 0);
    }
    say("child", end_of_child());
    struct timespec until = in_ms(300);
    SHOW(mq_timedreceive(q, data, 16, NULL, &until));
    until = in_ms(300);
    SHOW(sem_timedwait(s, &until));
    sem_t *again = sem_open("/taken", 0);
    say("the new semaphore has another address", again != s);
    SHOW(mq_close(q) | sem_close(s));
    SHOW(mq_unlink("/taken") | sem_unlink("/taken"));
}

int main(void)
{
    three_children();
    taken_over();
    return 0;
}
