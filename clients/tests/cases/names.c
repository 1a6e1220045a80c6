/* names.c: which names and flags an open and an unlink take, and what they answer. */
#include "case.h"

static char *long_name(size_t size)
{
    static char name[512];
    memset(name, 'n', size);
    name[0] = '/';
    name[size] = 0;
    return name;
}

static void queue_names(void)
{
    mqd_t q, r;
    mq_unlink("/names");
    SHOW(mq_open("/names", O_RDWR));
    SHOW(mq_open("/names", O_RDWR | O_EXCL));
    SHOW_OPEN(q, mq_open("/names", O_RDWR | O_CREAT | O_EXCL, 0600, NULL));
    SHOW(mq_open("/names", O_RDWR | O_CREAT | O_EXCL, 0600, NULL));
    SHOW_OPEN(r, mq_open("/names", O_RDONLY | O_CREAT, 0600, NULL));
    SHOW(mq_open("/names", O_WRONLY | O_RDWR));
    SHOW(mq_open("names", O_RDWR | O_CREAT, 0600, NULL));
    SHOW(mq_open("", O_RDWR | O_CREAT, 0600, NULL));
    SHOW(mq_open("/", O_RDWR | O_CREAT, 0600, NULL));
    SHOW(mq_open("/.", O_RDWR | O_CREAT, 0600, NULL));
    SHOW(mq_open("/..", O_RDWR | O_CREAT, 0600, NULL));
    SHOW(mq_open("/names/x", O_RDWR | O_CREAT, 0600, NULL));
    SHOW(mq_close(q));
    SHOW(mq_close(q));
    SHOW(mq_close(r));
    SHOW(mq_close(-1));
    SHOW_OPEN(q, mq_open(long_name(256), O_RDWR | O_CREAT, 0600, NULL));
    SHOW(mq_close(q));
    SHOW(mq_unlink(long_name(256)));
    SHOW(mq_open(long_name(257), O_RDWR | O_CREAT, 0600, NULL));
    SHOW(mq_unlink(long_name(257)));
    SHOW(mq_unlink("/names"));
    SHOW(mq_unlink("/names"));
    SHOW(mq_unlink("names"));
    SHOW(mq_unlink("/"));
    SHOW(mq_unlink("/names/x"));
}

static void semaphore_names(void)
{
    sem_t *s, *t;
    sem_unlink("/names");
    SHOW_SEM(s, sem_open("/names", 0));
    SHOW_SEM(s, sem_open("/names", O_CREAT | O_EXCL, 0600, 1));
    SHOW_SEM(t, sem_open("/names", O_CREAT | O_EXCL, 0600, 1));
    SHOW_SEM(t, sem_open("/names", 0));
    say("one address", s == t);
    SHOW(sem_close(t));
    SHOW(sem_close(s));
    SHOW(sem_close(s));
    SHOW_SEM(t, sem_open("names", 0));
    SHOW(sem_close(t));
    SHOW_SEM(t, sem_open("//names", 0));
    SHOW(sem_close(t));
    SHOW_SEM(t, sem_open("", O_CREAT, 0600, 1));
    SHOW_SEM(t, sem_open("/", O_CREAT, 0600, 1));
    SHOW_SEM(t, sem_open("/names/x", O_CREAT, 0600, 1));
    SHOW_SEM(t, sem_open("/names2", O_CREAT, 0600, (unsigned)SEM_VALUE_MAX + 1));
    SHOW_SEM(s, sem_open(long_name(252), O_CREAT, 0600, 1));
    SHOW(sem_close(s));
    SHOW(sem_unlink(long_name(252)));
    SHOW_SEM(t, sem_open(long_name(253), O_CREAT, 0600, 1));
    SHOW(sem_unlink(long_name(253)));
    SHOW(sem_unlink("names"));
    SHOW(sem_unlink("/names"));
    SHOW(sem_unlink(""));
    SHOW(sem_unlink("/names/x"));
}

/* An object lives until it is closed, whatever becomes of its name. */
static void life(void)
{
    char data[16];
    mqd_t q = new_queue("/life", 2, 16), r;
    sem_t *s = new_semaphore("/life", 1), *t;
    SHOW(mq_send(q, "old", 3, 0));
    SHOW(mq_unlink("/life"));
    SHOW(sem_unlink("/life"));
    r = new_queue("/life", 2, 16);
    t = new_semaphore("/life", 0);
    say("another address", s != t);
    SHOW(mq_send(r, "newer", 5, 0));
    SHOW(mq_receive(q, data, sizeof data, NULL));
    SHOW(mq_receive(r, data, sizeof data, NULL));
    SHOW(sem_trywait(s));
    SHOW(sem_trywait(t));
    SHOW(mq_close(q) | mq_close(r) | sem_close(s) | sem_close(t));
    SHOW(mq_unlink("/life") | sem_unlink("/life"));
}

int main(void)
{
    queue_names();
    semaphore_names();
    life();
    return 0;
}
