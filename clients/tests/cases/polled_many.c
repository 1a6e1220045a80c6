/* polled_many.c: a loop over 100 queues, by poll and then by epoll, and two writers, which wait for room: each message comes once. */
#include "case.h"

#include <poll.h>
#include <sys/epoll.h>

enum { QUEUES = 100, WRITERS = 2, MESSAGES = 1000, ROOM = 4 };

static mqd_t queues[QUEUES];
static char seen[WRITERS * MESSAGES];
static int twice, ill;

/* Each writer picks queues by a sequence of its own, and waits for room if one is full. */
static void write_all(int writer)
{
    unsigned seed = (unsigned)writer + 1;
    for (int i = 0; i < MESSAGES; i++) {
        int number = writer * MESSAGES + i;
        mqd_t q = queues[rand_r(&seed) % QUEUES];
        while (mq_send(q, (char *)&number, sizeof number, 0) < 0) {
            struct pollfd p = { q, POLLOUT, 0 };
            if (errno != EAGAIN || poll(&p, 1, 5000) != 1) _exit(1);
        }
        if (i % 50 == 0) pause_ms(1);
    }
    _exit(0);
}

static int take_all(mqd_t q)
{
    int number, got = 0;
    while (mq_receive(q, (char *)&number, sizeof number, NULL) == sizeof number) {
        if (number < 0 || number >= WRITERS * MESSAGES) ill++;
        else twice += seen[number]++;
        got++;
    }
    return got;
}

static int by_poll(void)
{
    struct pollfd p[QUEUES];
    for (int i = 0; i < QUEUES; i++) p[i] = (struct pollfd){ queues[i], POLLIN, 0 };
    int r = poll(p, QUEUES, 5000), got = 0;
    for (int i = 0; i < QUEUES && r > 0; i++)
        if (p[i].revents & POLLIN) got += take_all(queues[i]);
    return r > 0 ? got : -1;
}

static int by_epoll(int set)
{
    struct epoll_event e[16];
    int r = epoll_wait(set, e, 16, 5000), got = 0;
    for (int i = 0; i < r; i++) got += take_all(e[i].data.fd);
    return r > 0 ? got : -1;
}

static void loop(const char *how, int set)
{
    int missing = 0;
    memset(seen, 0, sizeof seen);
    twice = ill = 0;
    fflush(stdout);
    for (int writer = 0; writer < WRITERS; writer++)
        if (fork() == 0) write_all(writer);
    for (int got = 0, more = 0; got < WRITERS * MESSAGES; got += more)
        if ((more = set < 0 ? by_poll() : by_epoll(set)) < 0) break;
    for (int i = 0; i < WRITERS * MESSAGES; i++) missing += !seen[i];
    printf("%s: %d messages, %d missing, %d twice, %d ill\n", how, WRITERS * MESSAGES, missing, twice, ill);
    for (int writer = 0; writer < WRITERS; writer++) say("writer", end_of_child());
}

int main(void)
{
    char name[24];
    struct mq_attr a = { .mq_maxmsg = ROOM, .mq_msgsize = sizeof(int) };
    int set = epoll_create1(EPOLL_CLOEXEC), put_in = 0;
    for (int i = 0; i < QUEUES; i++) {
        snprintf(name, sizeof name, "/polled_many%d", i);
        queues[i] = mq_open(name, O_RDWR | O_CREAT | O_NONBLOCK, 0600, &a);
    }
    loop("poll", -1);
    for (int i = 0; i < QUEUES; i++) {
        struct epoll_event e = { EPOLLIN, { .fd = queues[i] } };
        put_in += epoll_ctl(set, EPOLL_CTL_ADD, queues[i], &e) == 0;
    }
    say("put in", put_in);
    loop("epoll", set);
    for (int i = 0; i < QUEUES; i++) {
        snprintf(name, sizeof name, "/polled_many%d", i);
        if (mq_close(queues[i]) < 0 || mq_unlink(name) < 0) return 1;
    }
    return 0;
}
