/* polling.c PART: waits for queues, in situations that the kernel doesn't have: what starts a thread, what the server is asked, sessions
 * that are lost, numbers that the program closes, a registration of another process, and waits that the library doesn't see. */
#include "cases/case.h"

#include <dirent.h>
#include <poll.h>
#include <sys/epoll.h>
#include <sys/eventfd.h>
#include <sys/ioctl.h>
#include <sys/prctl.h>
#include <sys/socket.h>
#include <sys/syscall.h>

enum { LIBRARY = 256 };   /* the library's own numbers are from here on */

static char data[16];
static mqd_t q;

static int entries(const char *path)
{
    DIR *folder = opendir(path);
    int count = 0;
    for (struct dirent *one; (one = readdir(folder));) count += one->d_name[0] != '.';
    closedir(folder);
    return count;
}

static void show_events(const char *what, int r, short events)
{
    const char *others = events & ~(POLLIN | POLLOUT) ? "else" : "";
    printf("%s: %d %s%s%s\n", what, r, events & POLLIN ? "in " : "", events & POLLOUT ? "out " : "", others);
    fflush(stdout);
}

static void show_poll(const char *what, int fd, short events, int ms)
{
    struct pollfd p = { fd, events, 0 };
    int r = poll(&p, 1, ms);
    show_events(what, r, p.revents);
}

/* By the system's own call, which the library doesn't see. */
static void show_raw(const char *what, int fd, short events, int ms)
{
    struct pollfd p = { fd, events, 0 };
    long r = syscall(SYS_poll, &p, 1, ms);
    show_events(what, (int)r, p.revents);
}

static pid_t later(long ms)
{
    fflush(stdout);
    pid_t child = fork();
    if (child) return child;
    pause_ms(ms);
    _exit(mq_send(q, "later", 5, 0) != 0);
}

/* ---- What starts a thread ---- */

static void starts(void)
{
    int ends[2], set = epoll_create1(0);
    struct epoll_event e = { EPOLLIN, { 0 } };
    if (pipe(ends) < 0) exit(2);
    show_poll("another file", ends[0], POLLIN, 0);
    SHOW(epoll_ctl(set, EPOLL_CTL_ADD, ends[0], &e));
    SHOW(epoll_wait(set, &e, 1, 0));
    SHOW(mq_send(q, "x", 1, 0));
    say("threads", entries("/proc/self/task"));
    show_poll("the queue", q, POLLIN | POLLOUT, 0);
    say("threads", entries("/proc/self/task"));
    SHOW(mq_receive(q, data, 16, NULL));
    show_poll("received", q, POLLIN | POLLOUT, 0);
}

/* What it asks of the server. The pauses keep the requests of the two sessions apart. */
static void asks(void)
{
    show_poll("empty", q, POLLIN, 50);
    pause_ms(500);   /* the watcher registers */
    show_poll("nothing is asked", q, POLLIN, 50);
    SHOW(mq_send(q, "x", 1, 0));
    pause_ms(500);   /* and again */
    show_poll("a message", q, POLLIN, 5000);
    SHOW(mq_receive(q, data, 16, NULL));
    show_poll("received", q, POLLIN, 50);
    show_poll("nothing is asked", q, POLLIN, 50);
}

/* ---- Lost sessions ---- */

static int last_socket(void)
{
    struct stat found;
    for (int fd = LIBRARY + 32; fd >= LIBRARY; fd--)
        if (fstat(fd, &found) == 0 && S_ISSOCK(found.st_mode)) return fd;
    return -1;
}

static void *shut_all(void *arg)
{
    pause_ms(100);
    for (int fd = LIBRARY; fd < LIBRARY + 32; fd++) shutdown(fd, SHUT_RDWR);
    return arg;
}

static void lost(void)
{
    pthread_t thread;
    show_poll("empty", q, POLLIN, 0);
    shutdown(last_socket(), SHUT_RDWR);   /* the watcher's */
    later(100);
    show_poll("without a session of its own", q, POLLIN, 5000);
    say("child", end_of_child());
    SHOW(mq_receive(q, data, 16, NULL));
    show_poll("received", q, POLLIN, 50);
    pthread_create(&thread, NULL, shut_all, NULL);
    show_poll("all are lost", q, POLLIN, 5000);
    pthread_join(thread, NULL);
    SHOW(mq_receive(q, data, 16, NULL));
    show_poll("it stays so", q, POLLIN | POLLOUT, 1000);
    mqd_t again = mq_open("/polling", O_RDWR | O_NONBLOCK);
    show_poll("opened anew", again, POLLIN | POLLOUT, 0);
    mqd_t old = q;
    q = again;
    later(100);
    show_poll("a message", q, POLLIN, 5000);
    say("child", end_of_child());
    SHOW(mq_close(old));
}

/* ---- Numbers ---- */

/* Closed by close, a number is another file's: its bytes stay, and the library writes none. */
static void closed(void)
{
    int ends[2], count;
    show_poll("empty", q, POLLIN, 0);
    mqd_t other = mq_open("/polling", O_WRONLY);
    close(q);
    if (pipe(ends) < 0 || ends[0] != q) exit(2);
    if (write(ends[1], "bytes", 5) != 5) exit(2);
    SHOW(mq_send(other, "x", 1, 0));
    pause_ms(100);
    show_poll("a pipe", ends[0], POLLIN | POLLOUT, 1000);
    SHOW(ioctl(ends[0], FIONREAD, &count));
    say("bytes", count);
    close(ends[0]);
    int set = epoll_create1(0), own = eventfd(5, 0);
    if (set != q) exit(2);
    show_poll("an epoll file", set, POLLIN | POLLOUT, 0);
    show_poll("an eventfd", own, POLLIN | POLLOUT, 0);
    close(set);
    q = mq_open("/polling", O_RDWR | O_NONBLOCK);
    say("the same number", q == ends[0]);
    show_poll("opened again", q, POLLIN | POLLOUT, 0);
    SHOW(mq_receive(q, data, 16, NULL));
    show_poll("received", q, POLLIN | POLLOUT, 0);
    SHOW(mq_close(other));
}

static void show_bytes(const char *what, int fd)
{
    int count = -1;
    ioctl(fd, FIONREAD, &count);
    say(what, count);
}

/* The program closes the library's numbers too, and opens others' files by these: they are neither read nor written nor closed, and nothing
 * spins. */
static void swept(void)
{
    int ends[2], opened = 0, open_yet = 0;
    struct timespec used;
    show_poll("empty", q, POLLIN, 0);
    later(200);
    pause_ms(100);   /* by then the watcher sleeps */
    close_range(3, ~0U, 0);
    if (socketpair(AF_UNIX, SOCK_STREAM, 0, ends) < 0 || write(ends[1], "bytes", 5) != 5) exit(2);
    for (int i = 0; i < 20; i++) opened += fcntl(ends[0], F_DUPFD, LIBRARY) >= LIBRARY;
    say("opened", opened);
    say("child", end_of_child());
    pause_ms(200);
    show_bytes("to be read", ends[0]);
    show_bytes("written", ends[1]);
    for (int fd = LIBRARY; fd < LIBRARY + 32; fd++) open_yet += fcntl(fd, F_GETFD) >= 0;
    say("open yet", open_yet);
    clock_gettime(CLOCK_PROCESS_CPUTIME_ID, &used);
    say("a tenth of a second of the processor", used.tv_sec || used.tv_nsec > 100000000);
    exit(0);
}

static void leaks(void)
{
    int before, wrong = 0;
    show_poll("empty", q, POLLIN, 0);
    before = entries("/proc/self/fd");
    for (int i = 0; i < 1500; i++) {
        mqd_t one = mq_open("/polling", O_RDWR | O_NONBLOCK);
        struct pollfd p = { one, POLLIN | POLLOUT, 0 };
        wrong += poll(&p, 1, 0) != 1 || p.revents != POLLOUT || mq_close(one) < 0;
    }
    say("wrong", wrong);
    /* The watcher closes what it had for a queue when it next runs. */
    for (int waits = 0; waits < 1000 && entries("/proc/self/fd") > before; waits++) pause_ms(10);
    say("files more", entries("/proc/self/fd") - before);
}

/* ---- Another's registration ---- */

/* Has the registration, and takes it again whenever a notice has ended it. */
static void hold_registration(int told)
{
    struct sigevent event = { .sigev_notify = SIGEV_SIGNAL, .sigev_signo = SIGUSR1 };
    sigset_t set;
    int signal;
    prctl(PR_SET_PDEATHSIG, SIGKILL);
    sigemptyset(&set);
    sigaddset(&set, SIGUSR1);
    sigprocmask(SIG_BLOCK, &set, NULL);
    mqd_t own = mq_open("/polling", O_RDONLY);
    if (mq_notify(own, &event) < 0 || write(told, "", 1) != 1) _exit(1);
    while (sigwait(&set, &signal) == 0)
        while (mq_notify(own, &event) < 0 && errno == EBUSY) pause_ms(1);
    _exit(1);
}

/* How long the poll goes on after the message was sent; the message says when that was. */
static double late_by(long ms)
{
    double sent;
    struct pollfd p = { q, POLLIN, 0 };
    if (fork() == 0) {
        pause_ms(ms);
        sent = seconds();
        _exit(mq_send(q, (char *)&sent, sizeof sent, 0) != 0);
    }
    if (poll(&p, 1, 60000) != 1) exit(2);
    double came = seconds();
    if (mq_receive(q, data, 16, NULL) != sizeof sent) exit(2);
    memcpy(&sent, data, sizeof sent);
    end_of_child();
    return came - sent;
}

/* One poll may be late where the machine is busy. But no sleep of the library's that is made too long would leave most of them in time. */
static void taken(void)
{
    enum { POLLS = 20 };
    struct sigevent none = { .sigev_notify = SIGEV_NONE };
    int told[2], late = 0;
    char byte;
    if (pipe(told) < 0) exit(2);
    pid_t holder = fork();
    if (holder == 0) hold_registration(told[1]);
    if (read(told[0], &byte, 1) != 1) exit(2);
    SHOW(mq_notify(q, &none));
    show_poll("empty", q, POLLIN, 0);
    for (int i = 0; i < POLLS; i++) late += late_by(i) > 1;
    say("most are late", late > POLLS / 2);
    kill(holder, SIGKILL);
    say("holder", end_of_child());
}

/* ---- Waits that the library doesn't see ---- */

static void raw(void)
{
    show_raw("empty", q, POLLIN, 50);
    later(100);
    show_raw("a message", q, POLLIN, 5000);
    say("child", end_of_child());
    SHOW(mq_receive(q, data, 16, NULL));
    show_raw("received", q, POLLIN | POLLOUT, 0);
    SHOW(mq_send(q, "x", 1, 0));
    show_raw("sent", q, POLLIN | POLLOUT, 0);
    SHOW(mq_send(q, "x", 1, 0));
    show_raw("full", q, POLLIN | POLLOUT, 0);
    if (fork() == 0) {
        SHOW(mq_receive(q, data, 16, NULL));
        show_raw("a child, received", q, POLLIN | POLLOUT, 0);
        SHOW(mq_receive(q, data, 16, NULL));
        show_raw("a child, received", q, POLLIN | POLLOUT, 0);
        _exit(0);
    }
    say("child", end_of_child());
}

static const struct { const char *name; void (*run)(void); } parts[] = {
    { "starts", starts }, { "asks", asks }, { "lost", lost }, { "closed", closed }, { "swept", swept },
    { "leaks", leaks }, { "taken", taken }, { "raw", raw },
};

int main(int argc, char **argv)
{
    struct mq_attr a = { .mq_maxmsg = 2, .mq_msgsize = 16 };
    mq_unlink("/polling");
    q = mq_open("/polling", O_RDWR | O_CREAT | O_EXCL | O_NONBLOCK, 0600, &a);
    for (size_t i = 0; i < sizeof parts / sizeof *parts && argc > 1; i++)
        if (!strcmp(parts[i].name, argv[1])) parts[i].run();
    SHOW(mq_close(q) | mq_unlink("/polling"));
    return 0;
}
