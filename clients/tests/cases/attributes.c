/* attributes.c: mq_getattr, mq_setattr, O_NONBLOCK, modes and masks. */
#include "case.h"

static void show_attributes(mqd_t q)
{
    struct mq_attr a;
    memset(&a, 0xff, sizeof a);
    if (mq_getattr(q, &a) < 0) printf("attributes: %s\n", strerrorname_np(errno));
    else printf("attributes: flags %ld maxmsg %ld msgsize %ld curmsgs %ld\n", a.mq_flags, a.mq_maxmsg, a.mq_msgsize, a.mq_curmsgs);
    fflush(stdout);
}

static void flags(void)
{
    struct mq_attr nonblock = { .mq_flags = O_NONBLOCK, .mq_maxmsg = 99, .mq_msgsize = 99 }, block = { 0 }, odd = { .mq_flags = O_APPEND }, old;
    mqd_t q = new_queue("/attributes", 3, 16), other = mq_open("/attributes", O_RDONLY | O_NONBLOCK);
    show_attributes(q);
    show_attributes(other);
    SHOW(mq_send(q, "x", 1, 0));
    SHOW(mq_setattr(q, &nonblock, &old));
    say("flags before", old.mq_flags);
    say("messages before", old.mq_curmsgs);
    show_attributes(q);
    SHOW(mq_setattr(q, &odd, NULL));
    SHOW(mq_setattr(q, &block, NULL));
    show_attributes(q);
    show_attributes(other);
    SHOW(mq_close(other));
    show_attributes(other);
    SHOW(mq_setattr(other, &block, NULL));
    SHOW(mq_setattr(other, &odd, NULL));
    SHOW(mq_close(q));
    SHOW(mq_unlink("/attributes"));
    SHOW_OPEN(q, mq_open("/attributes", O_RDWR | O_CREAT, 0600, NULL));
    show_attributes(q);
    SHOW(mq_close(q) | mq_unlink("/attributes"));
}

/* The flag is the open file description's, as that of any file. */
static void flag_of_the_file(void)
{
    char data[16];
    struct mq_attr block = { 0 };
    struct timespec until = in_ms(300);
    mqd_t q = new_queue("/attributes", 3, 16), other = mq_open("/attributes", O_RDONLY | O_NONBLOCK);
    say("flag of the file", fcntl(q, F_GETFL) & O_NONBLOCK);
    say("flag of the other's", fcntl(other, F_GETFL) & O_NONBLOCK);
    SHOW(fcntl(q, F_SETFL, O_NONBLOCK));
    show_attributes(q);
    SHOW(mq_timedreceive(q, data, 16, NULL, &until));
    SHOW(mq_setattr(other, &block, NULL));
    say("flag of the other's", fcntl(other, F_GETFL) & O_NONBLOCK);
    say("flag of the file", fcntl(q, F_GETFL) & O_NONBLOCK);
    SHOW(mq_close(other) | mq_close(q) | mq_unlink("/attributes"));
}

/* Modes that refuse the owner; user 0 is refused nothing. */
static void modes(void)
{
    mqd_t q, r;
    sem_t *s, *t;
    mode_t mask = umask(0277);
    mq_unlink("/modes");
    sem_unlink("/modes");
    SHOW_OPEN(q, mq_open("/modes", O_RDWR | O_CREAT, 0666, NULL));
    SHOW_OPEN(r, mq_open("/modes", O_RDONLY));
    SHOW(mq_open("/modes", O_WRONLY));
    SHOW(mq_open("/modes", O_RDWR | O_CREAT, 0666, NULL));
    SHOW_SEM(s, sem_open("/modes", O_CREAT, 0666, 1));
    SHOW_SEM(t, sem_open("/modes", 0));
    SHOW(sem_wait(s));
    umask(mask);
    SHOW(mq_close(q) | mq_close(r) | mq_unlink("/modes"));
    SHOW(sem_close(s) | sem_unlink("/modes"));
}

/* The number of a queue is no other file's. */
static void numbers(void)
{
    int before = open("/dev/null", O_RDONLY);
    mqd_t q = new_queue("/numbers", 1, 8);
    int after = open("/dev/null", O_RDONLY);
    say("numbers differ", q != before && q != after && before != after);
    say("closed on exec", (fcntl(q, F_GETFD) & FD_CLOEXEC) != 0);
    SHOW(mq_close(q) | mq_unlink("/numbers"));
    close(before);
    close(after);
}

int main(void)
{
    flags();
    flag_of_the_file();
    modes();
    numbers();
    return 0;
}
