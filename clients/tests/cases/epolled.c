/* epolled.c: epoll sets of queues: levels, edges, one shot, changes, closes, and a child that has its parent's set. */
#include "case.h"

#include <sys/epoll.h>

enum { QUEUES = 3 };

static char data[16];
static int set;

static void put_in(mqd_t q, uint32_t events, int number)
{
    struct epoll_event e = { events, { .u32 = (uint32_t)number } };
    SHOW(epoll_ctl(set, EPOLL_CTL_ADD, q, &e));
}

static void change(mqd_t q, uint32_t events, int number)
{
    struct epoll_event e = { events, { .u32 = (uint32_t)number } };
    SHOW(epoll_ctl(set, EPOLL_CTL_MOD, q, &e));
}

/* The queues that are ready, in the order of their numbers. */
static void show_ready(const char *what, int ms)
{
    struct epoll_event e[8];
    int r = epoll_wait(set, e, 8, ms);
    printf("%s: %d", what, r);
    for (uint32_t number = 0; number < 8; number++)
        for (int i = 0; i < r; i++)
            if (e[i].data.u32 == number)
                printf(", %u %s%s", number, e[i].events & EPOLLIN ? "in" : "", e[i].events & EPOLLOUT ? "out" : "");
    putchar('\n');
    fflush(stdout);
}

static void give(mqd_t q)
{
    if (mq_send(q, "x", 1, 0) < 0) exit(2);
}

static void take(mqd_t q)
{
    if (mq_receive(q, data, sizeof data, NULL) < 0) exit(2);
}

static void later(mqd_t q)
{
    fflush(stdout);
    if (fork()) return;
    pause_ms(100);
    _exit(mq_send(q, "later", 5, 0) != 0);
}

static void levels(const mqd_t *q)
{
    put_in(q[0], EPOLLIN, 0);
    put_in(q[1], EPOLLIN | EPOLLOUT, 1);
    put_in(q[2], EPOLLIN, 2);
    put_in(q[2], EPOLLIN, 2);
    show_ready("empty", 0);
    give(q[0]);
    give(q[2]);
    show_ready("two with messages", 1000);
    show_ready("the same again", 0);
    take(q[0]);
    show_ready("one was received", 0);
    take(q[2]);
    change(q[1], EPOLLIN, 1);
    show_ready("nothing", 50);
    later(q[2]);
    show_ready("a message comes", 5000);
    say("child", end_of_child());
    take(q[2]);
    later(q[1]);
    show_ready("another, without an end", -1);
    say("child", end_of_child());
    take(q[1]);
}

/* A blocking receive for each event, as a loop does that is the only reader: it never waits. */
static void one_reader(const mqd_t *q)
{
    struct epoll_event e;
    int got = 0;
    for (int i = 0; i < QUEUES; i++)
        for (int k = 0; k < 3; k++) give(q[i]);
    while (got < 3 * QUEUES && epoll_wait(set, &e, 1, 1000) == 1) {
        take(q[e.data.u32]);
        got++;
    }
    say("received", got);
    show_ready("nothing is left", 20);
}

static void room(const mqd_t *q)
{
    change(q[0], EPOLLOUT, 0);
    show_ready("can be written", 0);
    for (int i = 0; i < 3; i++) give(q[0]);
    show_ready("three of four", 0);
    give(q[0]);
    show_ready("full", 50);
    change(q[0], EPOLLOUT | EPOLLIN, 0);
    show_ready("full, for both", 0);
    change(q[0], EPOLLOUT, 0);
    fflush(stdout);
    if (fork() == 0) {
        pause_ms(100);
        _exit(mq_receive(q[0], data, sizeof data, NULL) < 0);
    }
    show_ready("room comes", 5000);
    say("child", end_of_child());
    for (int i = 0; i < 3; i++) take(q[0]);
}

static void edges(const mqd_t *q)
{
    change(q[0], EPOLLIN | EPOLLET, 0);
    show_ready("empty", 20);
    give(q[0]);
    show_ready("an edge", 1000);
    show_ready("none", 20);
    give(q[0]);
    show_ready("a further message", 1000);
    show_ready("none", 20);
    later(q[0]);
    show_ready("a child's message", 5000);
    say("child", end_of_child());
    take(q[0]);
    take(q[0]);
    show_ready("one is left", 1000);
    take(q[0]);
    show_ready("none is left", 20);
    later(q[0]);
    show_ready("an edge", 5000);
    say("child", end_of_child());
    take(q[0]);
    change(q[0], EPOLLIN | EPOLLONESHOT, 0);
    give(q[0]);
    show_ready("one shot", 1000);
    give(q[0]);
    show_ready("none", 20);
    change(q[0], EPOLLIN | EPOLLONESHOT, 0);
    show_ready("another shot", 1000);
    take(q[0]);
    take(q[0]);
}

static void ends(mqd_t *q)
{
    struct epoll_event none = { 0 };
    give(q[2]);
    SHOW(epoll_ctl(set, EPOLL_CTL_DEL, q[2], &none));
    SHOW(epoll_ctl(set, EPOLL_CTL_DEL, q[2], NULL));
    SHOW(epoll_ctl(set, EPOLL_CTL_MOD, q[2], &none));
    show_ready("taken out", 20);
    put_in(q[2], EPOLLIN, 2);
    show_ready("put in", 1000);
    SHOW(mq_close(q[2]));
    show_ready("closed", 20);
    SHOW(epoll_ctl(set, EPOLL_CTL_DEL, q[2], NULL));
    q[2] = mq_open("/epolled2", O_RDWR);
    show_ready("opened again", 20);
    put_in(q[2], EPOLLIN, 2);
    show_ready("put in", 1000);
    take(q[2]);
    SHOW(epoll_ctl(-1, EPOLL_CTL_ADD, q[2], &none));
    SHOW(epoll_ctl(set, 77, q[2], &none));
}

/* A child that waits by its parent's set, while the parent does and when it doesn't. */
static void children(const mqd_t *q)
{
    fflush(stdout);
    if (fork() == 0) {
        show_ready("a child, empty", 20);
        later(q[1]);
        show_ready("a child, a message comes", 5000);
        end_of_child();
        take(q[1]);
        show_ready("a child, received", 20);
        change(q[1], EPOLLIN | EPOLLOUT, 1);
        show_ready("a child, for both", 1000);
        change(q[1], EPOLLIN, 1);
        _exit(0);
    }
    say("child", end_of_child());
    show_ready("after its child", 20);
    give(q[1]);
    show_ready("a message", 1000);
    take(q[1]);
    show_ready("received", 20);
    if (fork() == 0) {
        if (fork() == 0) {
            pause_ms(200);
            show_ready("a child whose parent has ended", 5000);
            _exit(0);
        }
        _exit(0);
    }
    say("child", end_of_child());
    for (int i = 0; i < QUEUES; i++) mq_close(q[i]);
    pause_ms(400);
    mqd_t again = mq_open("/epolled1", O_RDWR);
    give(again);
    pause_ms(300);
    mq_close(again);
}

int main(void)
{
    mqd_t q[QUEUES];
    char name[16];
    set = epoll_create1(EPOLL_CLOEXEC);
    for (int i = 0; i < QUEUES; i++) {
        snprintf(name, sizeof name, "/epolled%d", i);
        q[i] = new_queue(name, 4, 16);
    }
    levels(q);
    one_reader(q);
    room(q);
    edges(q);
    ends(q);
    children(q);
    SHOW(mq_unlink("/epolled0") | mq_unlink("/epolled1") | mq_unlink("/epolled2"));
    return 0;
}
