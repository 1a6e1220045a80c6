/* polled.c: poll, ppoll, select and pselect on queues: what is ready now, what comes, moments and signals. */
#include "case.h"

#include <poll.h>
#include <sys/select.h>

static char data[16];
static volatile sig_atomic_t hits;

static void on_signal(int signal)
{
    (void)signal;
    hits++;
}

/* The events that a poll of one queue gives, as letters. */
static void show_poll(const char *what, mqd_t q, short events, int ms)
{
    struct pollfd p = { q, events, 0 };
    int r = poll(&p, 1, ms);
    printf("%s: %d %s%s%s\n", what, r, p.revents & POLLIN ? "in " : "", p.revents & POLLOUT ? "out " : "",
           p.revents & ~(POLLIN | POLLOUT) ? "else" : "");
    fflush(stdout);
}

static void show_now(const char *what, mqd_t q) { show_poll(what, q, POLLIN | POLLOUT, 0); }

static void fill(mqd_t q, int messages)
{
    for (int i = 0; i < messages; i++)
        if (mq_send(q, "x", 1, 0) < 0) exit(2);
}

static void empty(mqd_t q, int messages)
{
    for (int i = 0; i < messages; i++)
        if (mq_receive(q, data, sizeof data, NULL) < 0) exit(2);
}

/* Every state, and what makes it. */
static void states(mqd_t q)
{
    show_now("empty", q);
    fill(q, 1);
    show_now("one message", q);
    fill(q, 2);
    show_now("three of four", q);
    fill(q, 1);
    show_now("full", q);
    show_poll("full, for reading", q, POLLIN, -1);
    show_poll("full, for writing", q, POLLOUT, 50);
    empty(q, 1);
    show_now("three of four", q);
    show_poll("for both, without an end", q, POLLIN | POLLOUT, -1);
    struct pollfd bands = { q, POLLRDNORM | POLLWRNORM, 0 };
    say("by the normal bands alone", poll(&bands, 1, 0));
    empty(q, 3);
    show_now("empty", q);
    show_poll("for reading", q, POLLIN, 50);
    show_poll("for nothing", q, 0, 10);
    fill(q, 1);
    show_poll("for nothing", q, 0, 10);
    empty(q, 1);
}

/* A child that waits a while, and then calls. */
static void later(mqd_t q, int sends)
{
    fflush(stdout);
    if (fork()) return;
    pause_ms(100);
    _exit(sends ? mq_send(q, "later", 5, 0) != 0 : mq_receive(q, data, sizeof data, NULL) < 0);
}

/* Whether it took about so long. */
static void show_time(double began, double least, double most)
{
    double took = seconds() - began;
    say("in time", took >= least && took < most);
    if (took < least || took >= most) printf("took %.3f\n", took);
}

static void what_comes(mqd_t q)
{
    double began = seconds();
    later(q, 1);
    show_poll("a message comes", q, POLLIN, 5000);
    show_time(began, 0.09, 2);
    say("child", end_of_child());
    empty(q, 1);
    fill(q, 4);
    began = seconds();
    later(q, 0);
    show_poll("room comes", q, POLLOUT, 5000);
    show_time(began, 0.09, 2);
    say("child", end_of_child());
    empty(q, 3);
    began = seconds();
    show_poll("nothing comes", q, POLLIN, 200);
    show_time(began, 0.199, 2);
    later(q, 1);
    show_poll("a message comes, without an end", q, POLLIN, -1);
    say("child", end_of_child());
    /* What a process did that has ended is seen at once. */
    show_now("its message", q);
    empty(q, 1);
    show_now("received", q);
}

/* What seems ready, and another process has changed since. */
static void what_others_do(mqd_t q)
{
    fill(q, 1);
    show_poll("a message", q, POLLIN, 1000);
    later(q, 0);
    say("child", end_of_child());
    show_poll("a child has received it", q, POLLIN, 50);
    show_poll("there is room", q, POLLOUT, 1000);
    fflush(stdout);
    if (fork() == 0) {
        fill(q, 4);
        _exit(0);
    }
    say("child", end_of_child());
    show_poll("a child has filled it", q, POLLOUT, 50);
    empty(q, 4);
}

/* By the parent's queue, by a second one of the same name, and by files that are no queues. */
static void several(mqd_t q)
{
    int ends[2];
    mqd_t again = mq_open("/polled", O_RDONLY), other = new_queue("/polled2", 1, 16);
    if (pipe(ends) < 0) exit(2);
    struct pollfd p[5] = { { q, POLLIN, 0 }, { -1, POLLIN, 0 }, { ends[0], POLLIN, 0 }, { other, POLLIN | POLLOUT, 0 },
                           { again, POLLIN, 0 } };
    SHOW(poll(p, 5, 0));
    say("the other", p[3].revents == POLLOUT);
    fill(other, 1);
    fill(q, 1);
    SHOW(poll(p, 5, -1));
    say("all", p[0].revents == POLLIN && p[3].revents == POLLIN && p[4].revents == POLLIN && !p[1].revents && !p[2].revents);
    empty(again, 1);
    empty(other, 1);
    if (write(ends[1], "x", 1) != 1) exit(2);
    p[3].events = POLLIN;
    SHOW(poll(p, 5, -1));
    say("the pipe alone", p[2].revents == POLLIN && !p[0].revents && !p[3].revents && !p[4].revents);
    SHOW(mq_close(other) | mq_unlink("/polled2"));
    p[3].revents = 0;
    SHOW(poll(&p[3], 1, 0));
    say("a closed one", p[3].revents == POLLNVAL);
    SHOW(mq_close(again));
    close(ends[0]);
    close(ends[1]);
}

static void show_select(const char *what, mqd_t q, long us)
{
    fd_set reads, writes, others;
    struct timeval time = { us / 1000000, us % 1000000 };
    FD_ZERO(&reads);
    FD_SET(q, &reads);
    writes = others = reads;
    int r = select(q + 1, &reads, &writes, &others, us < 0 ? NULL : &time);
    printf("%s: select %d %s%s%s\n", what, r, FD_ISSET(q, &reads) ? "in " : "", FD_ISSET(q, &writes) ? "out " : "",
           FD_ISSET(q, &others) ? "else" : "");
    fflush(stdout);
}

static void selects(mqd_t q)
{
    fd_set reads;
    struct timeval time = { 5, 0 }, odd = { -1, 0 };
    struct timespec shortly = { 0, 50000000 };
    show_select("empty", q, 0);
    fill(q, 1);
    show_select("one message", q, -1);
    fill(q, 3);
    show_select("full", q, 5000000);
    empty(q, 4);
    FD_ZERO(&reads);
    FD_SET(q, &reads);
    later(q, 1);
    SHOW(select(q + 1, &reads, NULL, NULL, &time));
    say("is read", FD_ISSET(q, &reads));
    say("time is left", time.tv_sec >= 1 && time.tv_sec < 5);
    say("child", end_of_child());
    empty(q, 1);
    SHOW(pselect(q + 1, &reads, NULL, NULL, &shortly, NULL));
    say("is read", FD_ISSET(q, &reads));
    FD_SET(q, &reads);
    SHOW(select(q + 1, &reads, NULL, NULL, &odd));
}

/* A wait ends by a signal, also by one that came before and was blocked until then. */
static void signals(mqd_t q)
{
    struct pollfd p = { q, POLLIN, 0 };
    sigset_t blocked, before;
    struct timespec long_time = { 5, 0 };
    handle(SIGALRM, on_signal, SA_RESTART);
    alarm_each(100);
    SHOW(poll(&p, 1, 5000));
    alarm_each(0);
    sigemptyset(&blocked);
    sigaddset(&blocked, SIGALRM);
    sigprocmask(SIG_BLOCK, &blocked, &before);
    hits = 0;
    raise(SIGALRM);
    SHOW(poll(&p, 1, 50));
    say("signals", hits);
    SHOW(ppoll(&p, 1, &long_time, &before));
    say("signals", hits);
    sigset_t now;
    sigprocmask(SIG_SETMASK, &before, &now);
    say("blocked afterwards", sigismember(&now, SIGALRM));
}

/* O_NONBLOCK is as it was, and a child has it too. */
static void flags(mqd_t q)
{
    struct mq_attr a;
    SHOW(mq_receive(q, data, sizeof data, NULL));
    mq_getattr(q, &a);
    say("O_NONBLOCK", a.mq_flags == O_NONBLOCK && (fcntl(q, F_GETFL) & O_NONBLOCK));
    say("FD_CLOEXEC", fcntl(q, F_GETFD) == FD_CLOEXEC);
    if (fork() == 0) _exit(fcntl(q, F_SETFL, 0) != 0);
    say("child", end_of_child());
    mq_getattr(q, &a);
    say("O_NONBLOCK", a.mq_flags == O_NONBLOCK);
    SHOW(fcntl(q, F_SETFL, O_NONBLOCK));
}

/* A child polls its parent's queue, while its parent does. */
static void children(mqd_t q)
{
    fflush(stdout);
    if (fork() == 0) {
        show_now("a child, empty", q);
        show_poll("a child, before a message", q, POLLIN, 5000);
        empty(q, 1);
        show_now("a child, received", q);
        _exit(0);
    }
    pause_ms(300);
    fill(q, 1);
    say("child", end_of_child());
    show_now("after its child", q);
}

/* A queue that has no name any more. */
static void unnamed(void)
{
    mqd_t q = new_queue("/polled3", 2, 16);
    SHOW(mq_unlink("/polled3"));
    show_now("unlinked", q);
    later(q, 1);
    show_poll("a message comes", q, POLLIN, 5000);
    say("child", end_of_child());
    show_now("unlinked", q);
    empty(q, 1);
    show_now("unlinked", q);
    SHOW(mq_close(q));
}

/* The program's own registration goes before what its wait needs, and that before another process's. */
static void notices(mqd_t q)
{
    struct sigevent event = { .sigev_notify = SIGEV_SIGNAL, .sigev_signo = SIGUSR1 }, none = { .sigev_notify = SIGEV_NONE };
    show_poll("nothing comes", q, POLLIN, 100);
    fflush(stdout);
    if (fork() == 0) _exit(show("a child's mq_notify", mq_notify(q, &none)) == 0 && mq_notify(q, NULL) < 0);
    say("child", end_of_child());
    handle(SIGUSR1, on_signal, SA_RESTART);
    hits = 0;
    show_now("empty", q);
    SHOW(mq_notify(q, &event));
    SHOW(mq_notify(q, &event));
    show_now("registered", q);
    fill(q, 1);
    say("notices", hits);
    show_poll("a message", q, POLLIN, 5000);
    empty(q, 1);
    show_now("received", q);
    SHOW(mq_notify(q, &event));
    later(q, 1);
    struct pollfd p = { q, POLLIN, 0 };
    while (poll(&p, 1, 5000) < 0);
    say("is ready", p.revents == POLLIN);
    say("child", end_of_child());
    empty(q, 1);
    SHOW(mq_notify(q, NULL));
    later(q, 1);
    show_poll("withdrawn", q, POLLIN, 5000);
    say("child", end_of_child());
    empty(q, 1);
}

int main(void)
{
    struct mq_attr a = { .mq_maxmsg = 4, .mq_msgsize = 16 };
    mq_unlink("/polled");
    mqd_t q = mq_open("/polled", O_RDWR | O_CREAT | O_EXCL | O_NONBLOCK, 0600, &a);
    states(q);
    what_comes(q);
    what_others_do(q);
    several(q);
    selects(q);
    signals(q);
    flags(q);
    notices(q);
    children(q);
    unnamed();
    SHOW(mq_close(q) | mq_unlink("/polled"));
    return 0;
}
