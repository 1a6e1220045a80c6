/* notices.c: mq_notify by a signal, by a thread and by nothing, and how registrations end. */
#include "case.h"

#include <stdatomic.h>

static char data[16];
static volatile sig_atomic_t hits, value, code, sender;
static atomic_int thread_hits, thread_value, thread_is_detached;

static void on_notice(int signal, siginfo_t *info, void *context)
{
    (void)signal;
    (void)context;
    hits++;
    value = info->si_value.sival_int;
    code = info->si_code;
    sender = info->si_pid;
}

static void on_thread(union sigval given)
{
    pthread_attr_t attributes;
    int state;
    pthread_getattr_np(pthread_self(), &attributes);
    pthread_attr_getdetachstate(&attributes, &state);
    pthread_attr_destroy(&attributes);
    thread_is_detached = state == PTHREAD_CREATE_DETACHED;
    thread_value = given.sival_int;
    thread_hits++;
}

static struct sigevent by_signal(int given)
{
    return (struct sigevent){ .sigev_notify = SIGEV_SIGNAL, .sigev_signo = SIGUSR1, .sigev_value.sival_int = given };
}

/* How many notices came since the last look: waits for one that must come, and a while for one that must not. */
static void show_hits(const char *what, int wanted)
{
    for (int i = 0; i < 30 && hits < wanted; i++) pause_ms(10);
    pause_ms(30);
    printf("%s: %d notices, the last with %d\n", what, (int)hits, (int)value);
    fflush(stdout);
    hits = value = 0;
}

static pid_t send_from_child(mqd_t q)
{
    fflush(stdout);
    pid_t child = fork();
    if (child == 0) _exit(mq_send(q, "child", 5, 0) != 0);
    say("child", end_of_child());
    return child;
}

static void faults(mqd_t q)
{
    struct sigevent none = { .sigev_notify = SIGEV_NONE }, odd = { .sigev_notify = 77 }, signal = by_signal(1);
    SHOW(mq_notify(-1, &signal));
    SHOW(mq_notify(STDOUT_FILENO, NULL));
    SHOW(mq_notify(q, &odd));
    SHOW(mq_notify(-1, &odd));
    signal.sigev_signo = 65;
    SHOW(mq_notify(q, &signal));
    signal.sigev_signo = -1;
    SHOW(mq_notify(q, &signal));
    SHOW(mq_notify(q, NULL));
    SHOW(mq_notify(q, &none));
    SHOW(mq_notify(q, &none));
    SHOW(mq_send(q, "x", 1, 0));
    SHOW(mq_receive(q, data, 16, NULL));
    SHOW(mq_notify(q, &none));
    SHOW(mq_notify(q, NULL));
}

static void signals(mqd_t q)
{
    struct sigevent first = by_signal(11), second = by_signal(12);
    mqd_t other = mq_open("/notices", O_RDONLY);
    SHOW(mq_notify(q, &first));
    SHOW(mq_notify(other, &second));
    SHOW(mq_send(q, "x", 1, 0));
    say("before mq_send returned", hits);
    show_hits("own message", 1);
    say("from a queue", code == SI_MESGQ);
    say("own pid", sender == getpid());
    SHOW(mq_notify(other, &second));
    SHOW(mq_send(q, "x", 1, 0));
    show_hits("the queue wasn't empty", 0);
    SHOW(mq_receive(q, data, 16, NULL));
    SHOW(mq_receive(q, data, 16, NULL));
    pid_t child = send_from_child(q);
    show_hits("a child's message", 1);
    say("the child's pid", sender == child);
    SHOW(mq_receive(q, data, 16, NULL));
    SHOW(mq_send(q, "x", 1, 0));
    show_hits("no registration", 0);
    SHOW(mq_receive(q, data, 16, NULL));
    SHOW(mq_notify(q, &first));
    SHOW(mq_notify(other, NULL));
    SHOW(mq_send(q, "x", 1, 0));
    show_hits("ended by the other descriptor", 0);
    SHOW(mq_receive(q, data, 16, NULL));
    SHOW(mq_notify(other, &second));
    SHOW(mq_close(other));
    SHOW(mq_send(q, "x", 1, 0));
    show_hits("ended by the close", 0);
    SHOW(mq_receive(q, data, 16, NULL));
}

/* A close of one descriptor, where another has the registration. */
static void close_of_another(mqd_t q)
{
    struct sigevent event = by_signal(13);
    mqd_t other = mq_open("/notices", O_RDONLY);
    SHOW(mq_notify(q, &event));
    SHOW(mq_close(other));
    SHOW(mq_send(q, "x", 1, 0));
    show_hits("another descriptor was closed", 1);
    SHOW(mq_receive(q, data, 16, NULL));
    SHOW(mq_notify(q, NULL));
}

static void *receive_once(void *arg)
{
    mqd_t *q = arg;
    static char taken[16];
    return (void *)(long)mq_receive(*q, taken, sizeof taken, NULL);
}

static void blocked_receiver_first(mqd_t q)
{
    struct sigevent event = by_signal(14);
    pthread_t thread;
    void *size;
    SHOW(mq_notify(q, &event));
    pthread_create(&thread, NULL, receive_once, &q);
    pause_ms(200);
    SHOW(mq_send(q, "xy", 2, 0));
    pthread_join(thread, &size);
    say("received", (long)size);
    show_hits("a receive was blocked", 0);
    SHOW(mq_send(q, "x", 1, 0));
    show_hits("none was", 1);
    SHOW(mq_receive(q, data, 16, NULL));
}

static void by_thread(mqd_t q)
{
    pthread_attr_t attributes;
    struct sigevent event = { .sigev_notify = SIGEV_THREAD, .sigev_notify_function = on_thread, .sigev_value.sival_int = 21 };
    SHOW(mq_notify(q, &event));
    send_from_child(q);
    for (int i = 0; i < 200 && thread_hits < 1; i++) pause_ms(10);
    say("threads", thread_hits);
    say("value", thread_value);
    say("detached", thread_is_detached);
    SHOW(mq_receive(q, data, 16, NULL));
    pthread_attr_init(&attributes);
    pthread_attr_setstacksize(&attributes, 256 * 1024);
    event.sigev_notify_attributes = &attributes;
    event.sigev_value.sival_int = 22;
    SHOW(mq_notify(q, &event));
    pthread_attr_destroy(&attributes);
    send_from_child(q);
    for (int i = 0; i < 200 && thread_hits < 2; i++) pause_ms(10);
    say("threads", thread_hits);
    say("value", thread_value);
    SHOW(mq_receive(q, data, 16, NULL));
}

/* A server sees the end of a process, and of its registration, a moment later. */
static int notify_soon(mqd_t q, const struct sigevent *event)
{
    int r;
    for (int tries = 200; (r = mq_notify(q, event)) == -1 && errno == EBUSY && tries > 0; tries--) pause_ms(50);
    return r;
}

/* A child has none of its parent's registrations. */
static void registrations_of_children(mqd_t q)
{
    struct sigevent event = by_signal(31), none = { .sigev_notify = SIGEV_NONE };
    SHOW(mq_notify(q, &event));
    if (fork() == 0) {
        SHOW(mq_notify(q, NULL));
        SHOW(mq_notify(q, &none));
        _exit(0);
    }
    say("child", end_of_child());
    send_from_child(q);
    show_hits("the parent's stays", 1);
    SHOW(mq_receive(q, data, 16, NULL));
    if (fork() == 0) _exit(SHOW(mq_notify(q, &none)) != 0);
    say("child", end_of_child());
    SHOW(notify_soon(q, &none));
    SHOW(mq_notify(q, NULL));
}

enum { ROUNDS = 20 };

/* A child that sends a message for each byte that comes by a pipe, whose other end this gives. */
static int begin_sends(mqd_t q)
{
    int ends[2];
    char byte;
    if (pipe(ends) < 0) exit(2);
    fflush(stdout);
    if (fork() == 0) {
        close(ends[1]);
        while (read(ends[0], &byte, 1) == 1)
            if (mq_send(q, "x", 1, 0) < 0) _exit(1);
        _exit(0);
    }
    close(ends[0]);
    return ends[1];
}

static void end_sends(int order)
{
    close(order);
    say("the sender", end_of_child());
}

static void let_send(int order)
{
    if (write(order, "", 1) != 1) exit(2);
}

/* Notices that come while the process asks for something else, as one does that takes all messages before it sleeps. */
static void among_answers(mqd_t q)
{
    struct sigevent event = by_signal(51);
    mqd_t now = mq_open("/notices", O_RDONLY | O_NONBLOCK);
    int order = begin_sends(q), came = 0;
    for (int i = 0; i < ROUNDS; i++) {
        mq_notify(q, &event);
        let_send(order);
        while (mq_receive(now, data, 16, NULL) < 0);
        for (int k = 0; k < 200 && !hits; k++) pause_ms(10);
        came += hits == 1;
        hits = value = 0;
    }
    say("notices while the queue was asked", came);
    end_sends(order);
    SHOW(mq_close(now));
}

/* Registers, lets a message be sent, and asks until it is there: the notice comes among the answers. */
static void register_and_look(int order, mqd_t q, mqd_t by, int given)
{
    struct sigevent event = by_signal(given);
    struct mq_attr a = { 0 };
    mq_notify(by, &event);
    let_send(order);
    while (mq_getattr(q, &a) == 0 && a.mq_curmsgs == 0);
}

/* Whether the notice of a registration has come by now. The message is taken. */
static int has_come(mqd_t q, int given)
{
    int came = hits == 1 && value == given;
    hits = value = 0;
    mq_receive(q, data, 16, NULL);
    return came;
}

/* A registration is made anew, withdrawn, or ended by a close, when the message of the one before has been sent. */
static void behind_a_notice(mqd_t q)
{
    struct sigevent none = { .sigev_notify = SIGEV_NONE };
    int order = begin_sends(q), anew = 0, withdrawn = 0, closed = 0;
    for (int i = 0; i < ROUNDS; i++) {
        register_and_look(order, q, q, 61);
        anew += mq_notify(q, &none) == 0 && has_come(q, 61) && mq_notify(q, NULL) == 0;
        register_and_look(order, q, q, 62);
        withdrawn += mq_notify(q, NULL) == 0 && has_come(q, 62);
        mqd_t other = mq_open("/notices", O_RDONLY);
        register_and_look(order, q, other, 63);
        closed += mq_close(other) == 0 && has_come(q, 63);
    }
    say("notices before a further registration", anew);
    say("notices before a withdrawal", withdrawn);
    say("notices before a close", closed);
    end_sends(order);
}

/* A close ends the registration also where a thread waits at the queue. */
static void close_under_a_receiver(mqd_t q)
{
    struct sigevent event = by_signal(71), none = { .sigev_notify = SIGEV_NONE };
    mqd_t other = mq_open("/notices", O_RDONLY);
    pthread_t thread;
    void *size;
    SHOW(mq_notify(other, &event));
    pthread_create(&thread, NULL, receive_once, &other);
    pause_ms(200);
    SHOW(mq_close(other));
    SHOW(mq_notify(q, &none));
    SHOW(mq_notify(q, NULL));
    SHOW(mq_send(q, "xyz", 3, 0));
    pthread_join(thread, &size);
    say("received", (long)size);
    show_hits("closed", 0);
}

/* A queue that has lost its name isn't the one that has it now. */
static void another_of_the_name(mqd_t q)
{
    struct sigevent event = by_signal(41);
    mqd_t newer = new_queue("/notices", 4, 16);
    SHOW(mq_notify(newer, &event));
    SHOW(mq_notify(q, NULL));
    SHOW(mq_send(newer, "x", 1, 0));
    show_hits("the newer queue's", 1);
    SHOW(mq_close(newer));
}

int main(void)
{
    struct sigaction action = { .sa_sigaction = on_notice, .sa_flags = SA_SIGINFO | SA_RESTART };
    sigaction(SIGUSR1, &action, NULL);
    mqd_t q = new_queue("/notices", 4, 16);
    faults(q);
    signals(q);
    close_of_another(q);
    blocked_receiver_first(q);
    by_thread(q);
    registrations_of_children(q);
    among_answers(q);
    behind_a_notice(q);
    close_under_a_receiver(q);
    another_of_the_name(q);
    SHOW(mq_close(q) | mq_unlink("/notices"));
    return 0;
}
