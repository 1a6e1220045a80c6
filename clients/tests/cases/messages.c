/* messages.c: order, sizes, priorities and access of sends and receives. */
#include "case.h"

static char data[64];
static unsigned priority;

static void show_received(mqd_t q)
{
    priority = 99999;
    ssize_t size = mq_receive(q, data, sizeof data, &priority);
    if (size < 0) printf("received: %s\n", strerrorname_np(errno));
    else printf("received: %zd bytes '%.*s' priority %u\n", size, (int)size, data, priority);
    fflush(stdout);
}

static void order(void)
{
    mqd_t q = new_queue("/messages", 6, 16);
    SHOW(mq_send(q, "low", 3, 0));
    SHOW(mq_send(q, "first", 5, 7));
    SHOW(mq_send(q, "second", 6, 7));
    SHOW(mq_send(q, "greatest", 8, 32767));
    SHOW(mq_send(q, "", 0, 3));
    for (int i = 0; i < 5; i++) show_received(q);
    SHOW(mq_send(q, "x", 1, 32768));
    SHOW(mq_send(q, "0123456789abcdef", 16, 1));
    SHOW(mq_send(q, "0123456789abcdefg", 17, 1));
    SHOW(mq_receive(q, data, 15, NULL));
    SHOW(mq_receive(q, data, 16, NULL));
    SHOW(mq_close(q));
    SHOW(mq_send(q, "x", 1, 0));
    SHOW(mq_receive(q, data, 16, NULL));
    SHOW(mq_send(q, "x", 1, 40000));
    SHOW(mq_send(-1, "x", 1, 0));
    SHOW(mq_receive(-1, data, 16, NULL));
    SHOW(mq_send(STDOUT_FILENO, "x", 1, 0));
    SHOW(mq_unlink("/messages"));
}

static void access_of_descriptors(void)
{
    mqd_t q = new_queue("/access", 2, 16), reader = mq_open("/access", O_RDONLY), writer = mq_open("/access", O_WRONLY);
    SHOW(mq_send(reader, "x", 1, 0));
    SHOW(mq_receive(writer, data, 16, NULL));
    SHOW(mq_receive(writer, data, 1, NULL));
    SHOW(mq_send(reader, "0123456789abcdefg", 17, 0));
    SHOW(mq_send(writer, "x", 1, 0));
    SHOW(mq_receive(reader, data, 16, NULL));
    SHOW(mq_close(q) | mq_close(reader) | mq_close(writer));
    SHOW(mq_unlink("/access"));
}

static void nonblock(void)
{
    mqd_t q = new_queue("/nonblock", 1, 16), n;
    SHOW_OPEN(n, mq_open("/nonblock", O_RDWR | O_NONBLOCK));
    SHOW(mq_receive(n, data, 16, NULL));
    SHOW(mq_receive(n, data, 15, NULL));
    SHOW(mq_send(n, "x", 1, 0));
    SHOW(mq_send(n, "y", 1, 0));
    struct timespec past = { 1, 0 }, soon = in_ms(5000);
    SHOW(mq_timedsend(n, "y", 1, 0, &soon));
    SHOW(mq_timedsend(n, "y", 1, 0, &past));
    SHOW(mq_timedreceive(q, data, 16, NULL, &past));
    SHOW(mq_timedreceive(n, data, 16, NULL, &past));
    SHOW(mq_close(q) | mq_close(n));
    SHOW(mq_unlink("/nonblock"));
}

/* A message that isn't the process's memory is refused, and nothing else comes of it. */
static void bad_pointer(void)
{
    const char *volatile nowhere = (const char *)16;
    struct timespec soon = in_ms(5000);
    mqd_t q = new_queue("/messages", 2, 16);
    sem_t *s = new_semaphore("/messages", 0);
    SHOW(mq_send(q, nowhere, 8, 0));
    SHOW(mq_timedsend(q, nowhere, 8, 0, &soon));
    SHOW(mq_send(q, "x", 1, 0));
    SHOW(mq_timedsend(q, "y", 1, 0, &soon));
    show_received(q);
    show_received(q);
    SHOW(sem_post(s));
    SHOW(sem_close(s) | sem_unlink("/messages"));
    SHOW(mq_close(q) | mq_unlink("/messages"));
}

/* The greatest messages and queues that a user without privileges may have by default, and one more. */
static void limits(void)
{
    static char big[8193];
    struct mq_attr most = { .mq_maxmsg = 10, .mq_msgsize = 8192 }, wrong[] = { { .mq_maxmsg = 11, .mq_msgsize = 8 },
        { .mq_maxmsg = 1, .mq_msgsize = 8193 }, { .mq_maxmsg = 0, .mq_msgsize = 8 }, { .mq_maxmsg = 1, .mq_msgsize = 0 },
        { .mq_maxmsg = -1, .mq_msgsize = 8 }, { .mq_maxmsg = 1, .mq_msgsize = -1 }, { .mq_maxmsg = 1L << 32, .mq_msgsize = 8 } };
    mqd_t q;
    mq_unlink("/limits");
    for (unsigned i = 0; i < sizeof wrong / sizeof *wrong; i++)
        SHOW(mq_open("/limits", O_RDWR | O_CREAT, 0600, &wrong[i]));
    SHOW_OPEN(q, mq_open("/limits", O_RDWR | O_CREAT, 0600, &most));
    SHOW(mq_send(q, big, 8192, 0));
    SHOW(mq_send(q, big, 8193, 0));
    SHOW(mq_receive(q, big, sizeof big, NULL));
    SHOW(mq_close(q) | mq_unlink("/limits"));
    char name[32];
    int count = 0;
    mqd_t all[300];
    for (; count < 300; count++) {
        snprintf(name, sizeof name, "/limits%d", count);
        if ((all[count] = mq_open(name, O_RDWR | O_CREAT, 0600, &most)) == (mqd_t)-1) break;
    }
    printf("queues of the greatest size: %d, then %s\n", count, strerrorname_np(errno));
    while (count-- > 0) {
        snprintf(name, sizeof name, "/limits%d", count);
        mq_close(all[count]);
        mq_unlink(name);
    }
}

int main(void)
{
    order();
    access_of_descriptors();
    nonblock();
    bad_pointer();
    limits();
    return 0;
}
