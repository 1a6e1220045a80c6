/* disturbed.c TEST ..: the program that tests/disturbances disturbs. It says `ready`, and waits for a line while its test acts. */
#include "cases/case.h"

#include <netinet/in.h>
#include <netinet/tcp.h>
#include <setjmp.h>
#include <stdint.h>
#include <sys/socket.h>
#include <sys/syscall.h>
#include <sys/uio.h>

enum { FIRST_FD = 256, MANY = 200, BUSY_S = 5 };   /* BUSY_S: what a busy machine may take; an answer takes ten seconds */

static mqd_t q;
static sem_t *s;
static char data[64];

static void await_line(void)
{
    char line[16];
    puts("ready");
    fflush(stdout);
    if (!fgets(line, sizeof line, stdin)) exit(3);
}

/* ---- Connections ---- */

static int option(int fd, int level, int name)
{
    int value = -1;
    socklen_t size = sizeof value;
    return getsockopt(fd, level, name, &value, &size) < 0 ? -1 : value;
}

/* Home, and the side. */
static void probes(void)
{
    q = new_queue("/disturbed", 2, 16);
    for (int fd = FIRST_FD; fd < FIRST_FD + 2; fd++) {
        if (option(fd, SOL_SOCKET, SO_KEEPALIVE) != 1) puts("no probes");
        else printf("probes after %d s, %d times, %d s apart\n", option(fd, IPPROTO_TCP, TCP_KEEPIDLE),
                    option(fd, IPPROTO_TCP, TCP_KEEPCNT), option(fd, IPPROTO_TCP, TCP_KEEPINTVL));
    }
}

static void reopen(void)
{
    q = new_queue("/disturbed", 2, 16);
    await_line();
    q = mq_open("/disturbed2", O_RDWR | O_CREAT, 0600, NULL);
    show("queue", q == (mqd_t)-1 ? -1 : 0);
    s = sem_open("/disturbed2", O_CREAT, 0600, 0);
    show("semaphore", s == SEM_FAILED ? -1 : 0);
}

static void on_notice(union sigval value) { sem_post(value.sival_ptr); }

static void registered(const char *how)
{
    static sem_t told;
    struct mq_attr a;
    struct sigevent event = { .sigev_notify = *how == 's' ? SIGEV_SIGNAL : SIGEV_THREAD, .sigev_signo = SIGUSR1 };
    sigset_t set;
    int signal;
    sem_init(&told, 0, 0);
    if (*how != 's') {
        event.sigev_notify_function = on_notice;
        event.sigev_value.sival_ptr = &told;
    }
    sigemptyset(&set);
    sigaddset(&set, SIGUSR1);
    sigprocmask(SIG_BLOCK, &set, NULL);
    q = new_queue("/disturbed", 2, 16);
    if (mq_notify(q, &event) < 0) exit(2);
    puts("ready");
    fflush(stdout);
    if (*how == 's') sigwait(&set, &signal);
    else while (sem_wait(&told) < 0);
    say("notices", 1);
    SHOW(mq_getattr(q, &a));
}

/* ---- Files ---- */

static void closed(void)
{
    struct mq_attr a;
    q = new_queue("/disturbed", 2, 16);
    close(q);
    SHOW(mq_send(q, "x", 1, 0));
    SHOW(mq_getattr(q, &a));
    int other = open("/dev/null", O_RDWR);   /* its number, by now another file's */
    if (other != q) dup2(other, q);
    SHOW(mq_send(q, "x", 1, 0));
    SHOW(mq_receive(q, data, sizeof data, NULL));
    SHOW(mq_notify(q, NULL));
}

static void *receive(void *arg)
{
    mq_receive(*(mqd_t *)arg, data, sizeof data, NULL);
    return arg;
}

/* As many queues as the server has room for, at most. */
static int open_many(mqd_t *many)
{
    int count = 0;
    char name[32];
    for (; count < MANY; count++) {
        snprintf(name, sizeof name, "/many%d", count);
        struct mq_attr attributes = { .mq_maxmsg = 1, .mq_msgsize = 16 };
        if ((many[count] = mq_open(name, O_RDWR | O_CREAT | O_EXCL, 0600, &attributes)) == (mqd_t)-1) break;
    }
    return count;
}

static void late(void)
{
    mqd_t many[MANY];
    pthread_t thread;
    q = new_queue("/disturbed", 2, 64);
    int count = open_many(many);
    say("opened", count);
    pthread_create(&thread, NULL, receive, &q);
    pause_ms(300);
    for (int i = 0; i < count; i++) {
        char name[32];
        snprintf(name, sizeof name, "/many%d", i);
        mq_close(many[i]);
        mq_unlink(name);
    }
    mq_send(q, "x", 1, 0);
    pthread_join(thread, NULL);
    say("opened anew", open_many(many));
}

static void fill_numbers(int fd, int until)
{
    while (fd < until) {
        int ends[2];
        if (socketpair(AF_UNIX, SOCK_STREAM | SOCK_NONBLOCK, 0, ends) < 0) exit(2);
        if (write(ends[0], "p", 1) < 0 || write(ends[1], "p", 1) < 0) exit(2);
        dup2(ends[0], fd++);
        dup2(ends[1], fd++);
        if (ends[0] < FIRST_FD) close(ends[0]);
        if (ends[1] < FIRST_FD) close(ends[1]);
    }
}

/* How many of the program's own files were closed, were written to, or have lost the byte that they had. */
static int harmed(int fd, int until)
{
    int count = 0;
    char bytes[2];
    for (; fd < until; fd++) count += recv(fd, bytes, sizeof bytes, MSG_DONTWAIT | MSG_PEEK) != 1 || *bytes != 'p';
    return count;
}

/* It closes the library's files, and has its own at those numbers. */
static void all_closed(void)
{
    enum { NUMBERS = 24 };
    pthread_t thread;
    struct sigevent event = { .sigev_notify = SIGEV_NONE };
    mqd_t other = new_queue("/disturbed2", 2, 64);
    q = new_queue("/disturbed", 2, 64);
    s = new_semaphore("/disturbed", 1);
    mq_notify(other, &event);
    pthread_create(&thread, NULL, receive, &q);
    pause_ms(300);
    for (int fd = 3; fd < 1000; fd++) close(fd);
    fill_numbers(FIRST_FD, FIRST_FD + NUMBERS);
    SHOW(sem_post(s));
    SHOW(sem_wait(s));
    mqd_t again = mq_open("/disturbed", O_RDWR);
    say("opened anew", again != (mqd_t)-1);
    SHOW(mq_send(again, "x", 1, 0));   /* it may go to the thread that blocks */
    pause_ms(300);
    SHOW(sem_close(s));
    if (fork() == 0) _exit(harmed(FIRST_FD, FIRST_FD + NUMBERS));
    say("harmed in a child", end_of_child());
    say("harmed", harmed(FIRST_FD, FIRST_FD + NUMBERS));
    _exit(0);
}

/* ---- Many threads ---- */

enum { THREADS = 40 };

static _Atomic int received;

static void *count_message(void *arg)
{
    char message[64];
    if (mq_receive(q, message, sizeof message, NULL) >= 0) received++;
    return arg;
}

static void many(void)
{
    pthread_t threads[THREADS];
    q = new_queue("/disturbed", 2, 64);
    for (int i = 0; i < THREADS; i++) pthread_create(&threads[i], NULL, count_message, NULL);
    pause_ms(1500);
    for (int i = 0; i < THREADS; i++) {
        mq_send(q, "x", 1, 0);
        while (received == i) pause_ms(1);
    }
    for (int i = 0; i < THREADS; i++) pthread_join(threads[i], NULL);
    say("received", received);
}

static _Atomic int runs, interrupted, is_over;

static void count_run(int signal)
{
    (void)signal;
    runs++;
}

static void *receive_often(void *arg)
{
    char message[64];
    while (!is_over) interrupted += mq_receive(q, message, sizeof message, NULL) < 0 && errno == EINTR;
    return arg;
}

/* A signal for the process ends the call of the one thread in which its handler runs, or none if it comes between two calls. */
static void herd(void)
{
    enum { HERD = 8, SIGNALS = 50 };
    pthread_t threads[HERD];
    sigset_t set;
    q = new_queue("/disturbed", 10, 64);
    handle(SIGALRM, count_run, 0);
    for (int i = 0; i < HERD; i++) pthread_create(&threads[i], NULL, receive_often, NULL);
    sigemptyset(&set);
    sigaddset(&set, SIGALRM);
    pthread_sigmask(SIG_BLOCK, &set, NULL);
    for (int i = 0; i < SIGNALS; i++) {
        pause_ms(10);
        kill(getpid(), SIGALRM);
        for (int ms = 0; runs <= i && ms < 10000; ms++) pause_ms(1);
    }
    is_over = 1;
    for (int i = 0; i < HERD; i++) mq_send(q, "x", 1, 0);
    for (int i = 0; i < HERD; i++) pthread_join(threads[i], NULL);
    printf("handlers ran: %s, calls ended: %s\n", runs == SIGNALS ? "each time" : "seldom",
           interrupted > runs ? "more" : interrupted > 0 ? "no more" : "none");
}

/* ---- A server that stands still ---- */

static volatile sig_atomic_t handled;

static void handler(int signal)
{
    (void)signal;
    handled = 1;
    if (write(STDOUT_FILENO, "handler\n", 8) < 0) _exit(4);
}

static void set_up(void)
{
    const char *name = getenv("NAME") ? getenv("NAME") : "/disturbed";
    q = new_queue(name, 2, 64);
    s = new_semaphore(name, 0);
    if (getenv("FULL")) for (int i = 0; i < 2; i++) mq_send(q, "full", 4, 0);
}

static long call(const char *what, const struct timespec *until)
{
    struct mq_attr a;
    if (!strcmp(what, "receive")) return until ? mq_timedreceive(q, data, sizeof data, NULL, until) : mq_receive(q, data, sizeof data, NULL);
    if (!strcmp(what, "send")) return until ? mq_timedsend(q, "x", 1, 0, until) : mq_send(q, "x", 1, 0);
    if (!strcmp(what, "wait")) return until ? sem_timedwait(s, until) : sem_wait(s);
    if (!strcmp(what, "post")) return sem_post(s);
    if (!strcmp(what, "getattr")) return mq_getattr(q, &a);
    if (!strcmp(what, "unlink")) return mq_unlink("/disturbed");
    if (!strcmp(what, "open")) return mq_open("/disturbed", O_RDWR) == (mqd_t)-1 ? -1 : 0;
    exit(2);
}

/* timed CALL MS: how it ends, and whether between its moment and two seconds after it. */
static void timed(const char *what, const char *ms)
{
    set_up();
    await_line();
    double start = seconds();
    struct timespec until = in_ms(atol(ms));
    show("call", call(what, &until));
    double took = seconds() - start - atof(ms) / 1000;
    if (took < 0 || took > 2 + BUSY_S) printf("it took %.1f s\n", took);
}

/* once CALL restart|end|none: a call during which a signal comes, and how its handler is installed. */
static void once(const char *what, const char *how)
{
    set_up();
    if (*how != 'n') handle(SIGALRM, handler, *how == 'r' ? SA_RESTART : 0);
    await_line();
    show("call", call(what, NULL));
}

static void *call_for_good(void *what)
{
    call(what, NULL);
    return what;
}

/* beside CALL fork|exit: another thread waits for an answer. */
static void beside(const char *what, const char *how)
{
    pthread_t thread;
    set_up();
    await_line();
    pthread_create(&thread, NULL, call_for_good, (void *)(uintptr_t)what);
    pause_ms(300);
    double start = seconds();
    if (*how == 'e') exit(0);
    if (fork() == 0) _exit(7);
    say("child", end_of_child());
    if (seconds() - start > BUSY_S) printf("it took %.1f s\n", seconds() - start);
    fflush(stdout);
    _exit(0);
}

static void post_in_handler(int signal)
{
    (void)signal;
    int r = sem_post(s);
    if (write(STDOUT_FILENO, r == 0 ? "posted\n" : "failed\n", 7) < 0) _exit(4);
}

/* The handler's call waits for the answer to the one that it interrupted. */
static void nested(void)
{
    int value;
    struct mq_attr a;
    set_up();
    handle(SIGALRM, post_in_handler, SA_RESTART);
    await_line();
    SHOW(mq_getattr(q, &a));
    say("messages at most", a.mq_maxmsg);
    SHOW(sem_getvalue(s, &value));
    say("value", value);
}

/* later CALL: whether a call that a signal ended has taken anything once the server goes on. */
static void later(const char *what)
{
    int value;
    struct mq_attr a;
    set_up();
    handle(SIGALRM, handler, 0);
    await_line();
    show("call", call(what, NULL));
    await_line();
    if (fork() == 0) _exit(mq_send(mq_open("/disturbed", O_WRONLY), "child", 5, 0) || sem_post(sem_open("/disturbed", 0)));
    say("child", end_of_child());
    SHOW(mq_getattr(q, &a));
    say("messages", a.mq_curmsgs);
    SHOW(sem_getvalue(s, &value));
    say("value", value);
}

/* A message that a receive took which a signal had ended, and whose queue is full by the time that it is put back. */
static void kept(void)
{
    int count = 0;
    struct mq_attr a;
    set_up();
    handle(SIGALRM, handler, 0);
    await_line();
    show("call", call("receive", NULL));
    await_line();
    if (fork() == 0) _exit(mq_send(mq_open("/disturbed", O_WRONLY), "child", 5, 0));
    say("child", end_of_child());
    mq_getattr(q, &a);
    say("messages", a.mq_curmsgs);
    for (struct timespec until = in_ms(500); mq_timedreceive(q, data, sizeof data, NULL, &until) >= 0; until = in_ms(500)) count++;
    say("received", count);
}

/* ---- Handlers that fork and jump ---- */

static volatile sig_atomic_t is_child;

static void fork_in_handler(int signal)
{
    int error = errno;
    (void)signal;
    if (fork() == 0) is_child = 1;
    errno = error;
}

/* Both processes go on with the call, and each gets one of two messages or posts. */
static void forks(const char *what)
{
    set_up();
    handle(SIGUSR1, fork_in_handler, SA_RESTART);
    if (getenv("STILL")) await_line();
    pid_t parent = getpid();
    pid_t other = fork();
    if (other == 0) {
        pause_ms(400);
        kill(parent, SIGUSR1);
        pause_ms(600);
        q = mq_open("/disturbed", O_RDWR);
        s = sem_open("/disturbed", 0);
        for (int i = 0; i < 2; i++)
            if (mq_send(q, "x", 1, 0) < 0 || sem_post(s) < 0) _exit(1);
        _exit(0);
    }
    long r = call(what, NULL);
    if (is_child) _exit(r < 0 ? errno : 100 + (int)r);
    show("call", r);
    for (int i = 0, status; i < 2; i++) {
        pid_t ended = wait(&status);
        say(ended == other ? "sender" : "child", WIFEXITED(status) ? WEXITSTATUS(status) : 1000 + WTERMSIG(status));
    }
}

static sigjmp_buf back;

/* As in a container that forbids the call. */
ssize_t process_vm_writev(pid_t process, const struct iovec *from, unsigned long count, const struct iovec *to, unsigned long count_to,
                          unsigned long flags)
{
    if (!getenv("FORBIDDEN")) return syscall(SYS_process_vm_writev, process, from, count, to, count_to, flags);
    errno = EPERM;
    return -1;
}

static void faulted(int signal)
{
    (void)signal;
    siglongjmp(back, 2);
}

/* Bad pointers are EFAULT, or reach a handler of SIGSEGV, and later calls go on. */
static void faults(void)
{
    void *volatile bad = (void *)8;
    static volatile int count;
    handle(SIGSEGV, faulted, 0);
    set_up();
    for (count = 0; count < 2; count++) mq_send(q, "x", 1, 0);
    int from = sigsetjmp(back, 1);
    alarm(20);
    if (!from) SHOW(mq_receive(q, bad, sizeof data, NULL));
    else say("a handler, at the buffer", from);
    if (!(from = sigsetjmp(back, 1))) mq_receive(q, data, sizeof data, bad);
    say("a handler, at the priority", from);
    if (!(from = sigsetjmp(back, 1))) mq_getattr(q, bad);
    say("a handler, at the attributes", from);
    if (!(from = sigsetjmp(back, 1))) sem_getvalue(s, bad);
    say("a handler, at the value", from);
    if (!(from = sigsetjmp(back, 1))) mq_open(bad, O_RDWR);
    say("a handler, at the name", from);
    if (!(from = sigsetjmp(back, 1))) mq_open("/disturbed2", O_RDWR | O_CREAT, 0600, bad);
    say("a handler, at the attributes of an open", from);
    SHOW(mq_send(q, "x", 1, 0));
    SHOW(mq_receive(q, data, sizeof data, NULL));
}

static void jump(int signal)
{
    (void)signal;
    siglongjmp(back, 1);
}

/* The same from a call on home, while a server stands still. */
static void jump_home(void)
{
    int value;
    struct mq_attr a;
    set_up();
    mq_send(q, "x", 1, 0);
    sem_post(s);
    handle(SIGALRM, jump, 0);
    await_line();
    if (sigsetjmp(back, 1) == 0) mq_receive(q, data, sizeof data, NULL);
    puts("back");
    fflush(stdout);
    if (sigsetjmp(back, 1) == 0) sem_wait(s);
    puts("back");
    fflush(stdout);
    await_line();
    SHOW(mq_getattr(q, &a));
    say("messages", a.mq_curmsgs);
    SHOW(sem_getvalue(s, &value));
    say("value", value);
}

/* A call that blocks is left, and a message and a post that come then stay, from this process or from its child. */
static void jumps(const char *what, const char *who)
{
    int value;
    struct mq_attr a;
    set_up();
    handle(SIGALRM, jump, 0);
    if (sigsetjmp(back, 1) == 0) {
        alarm_each(300);
        call(what, NULL);
    }
    alarm_each(0);
    if (*who != 'c') say("sent", mq_send(q, "x", 1, 0) == 0 && sem_post(s) == 0);
    else if (fork() == 0) _exit(mq_send(mq_open("/disturbed", O_WRONLY), "x", 1, 0) || sem_post(sem_open("/disturbed", 0)));
    else say("child", end_of_child());
    SHOW(mq_getattr(q, &a));
    say("messages", a.mq_curmsgs);
    SHOW(sem_getvalue(s, &value));
    say("value", value);
    struct timespec until = in_ms(500);
    SHOW(mq_timedreceive(q, data, sizeof data, NULL, &until));
    SHOW(sem_timedwait(s, &until));
}

/* ---- Rights ---- */

/* drop HOW: a child of root gives its rights away before its first call. */
static void drop(const char *how)
{
    enum { ANOTHER = 1001 };
    set_up();
    for (int i = 0; i < 2; i++) {   /* the second child gets no connection of its parent's either */
        if (fork() == 0) {
            int r = *how == 'e' ? seteuid(ANOTHER) : *how == 'r' ? setresuid(ANOTHER, ANOTHER, ANOTHER) : setuid(ANOTHER);
            if (r < 0) _exit(2);
            struct timespec until = in_ms(2000);
            _exit(SHOW(mq_send(q, "x", 1, 0)) < 0 || SHOW(mq_timedreceive(q, data, sizeof data, NULL, &until)) != 1);
        }
        say("child", end_of_child());
    }
}

/* A child of vfork has its parent's memory, and the parent's queue stays open. */
static void vforks(void)
{
    set_up();
    mq_unlink("/disturbed");
    pid_t child = vfork();
    if (child == 0) _exit(setuid(1001) < 0);
    say("child", end_of_child());
    SHOW(mq_send(q, "x", 1, 0));
    SHOW(mq_receive(q, data, sizeof data, NULL));
}

/* ---- Names ---- */

static void open_in_vain(void) { show("mq_open", mq_open("/disturbed", O_RDWR | O_CREAT, 0600, NULL)); }

int main(int argc, char **argv)
{
    static const struct { const char *name; void (*run)(void); } all[] = {
        { "probes", probes }, { "reopen", reopen }, { "closed", closed }, { "late", late }, { "open", open_in_vain },
        { "all_closed", all_closed }, { "nested", nested }, { "faults", faults }, { "many", many }, { "herd", herd },
        { "jump_home", jump_home }, { "kept", kept }, { "vforks", vforks },
    };
    static const struct { const char *name; void (*run)(const char *what); } with_one[] = {
        { "registered", registered }, { "later", later }, { "forks", forks }, { "drop", drop },
    };
    static const struct { const char *name; void (*run)(const char *what, const char *how); } with_two[] = {
        { "timed", timed }, { "once", once }, { "beside", beside }, { "jumps", jumps },
    };
    for (size_t i = 0; argc == 2 && i < sizeof all / sizeof *all; i++)
        if (!strcmp(all[i].name, argv[1])) return all[i].run(), 0;
    for (size_t i = 0; argc == 3 && i < sizeof with_one / sizeof *with_one; i++)
        if (!strcmp(with_one[i].name, argv[1])) return with_one[i].run(argv[2]), 0;
    for (size_t i = 0; argc == 4 && i < sizeof with_two / sizeof *with_two; i++)
        if (!strcmp(with_two[i].name, argv[1])) return with_two[i].run(argv[2], argv[3]), 0;
    return 2;
}
