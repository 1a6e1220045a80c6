/* notices.c: registrations of mq_notify, which are home's. While there are any, a thread of the library's own waits for notices, the
 * listener. Those that came among the answers to other calls are its too: who lets the lock go wakes it for them. A send and mq_notify
 * take them themselves. */
#include "preload.h"

#include <errno.h>
#include <fcntl.h>
#include <poll.h>
#include <stdlib.h>
#include <string.h>
#include <sys/stat.h>
#include <sys/syscall.h>
#include <unistd.h>

enum { WITHOUT_PIPE_MS = 100 };

int registrations;
static int listening;
static struct { int from, to; dev_t device; ino_t inode; } wake = { -1, -1, 0, 0 };   /* a pipe: its inode is no other file's */

/* ---- Delivery ---- */

struct call { void (*function)(union sigval); union sigval value; };

static void *run_call(void *arg)
{
    struct call call = *(struct call *)arg;
    sigset_t none;
    free(arg);
    sigemptyset(&none);
    pthread_sigmask(SIG_SETMASK, &none, NULL);
    call.function(call.value);
    return NULL;
}

static void start_thread(const struct object *o)
{
    struct call *call = malloc(sizeof *call);
    pthread_t thread;
    if (!call) return;
    *call = (struct call){ o->event.sigev_notify_function, o->event.sigev_value };
    if (pthread_create(&thread, &o->attributes, run_call, call)) {
        say("mq_notify", "no thread for a notice");
        free(call);
    }
}

/* The notice doesn't tell who sent the message: si_pid and si_uid are 0. */
static void send_signal(const struct object *o)
{
    siginfo_t info;
    memset(&info, 0, sizeof info);
    info.si_signo = o->event.sigev_signo;
    info.si_code = SI_MESGQ;
    info.si_value = o->event.sigev_value;
    syscall(SYS_rt_sigqueueinfo, getpid(), o->event.sigev_signo, &info);
}

static void deliver(struct object *o)
{
    if (o->event.sigev_notify == SIGEV_SIGNAL) send_signal(o);
    if (o->event.sigev_notify == SIGEV_THREAD) start_thread(o);
    end_registration(o);
}

static void hand_on(int what, uint64_t description)
{
    for (int i = 0; what == MQS_NOTICE && i < queues_top; i++)
        if (queues[i] && queues[i]->registered && queues[i]->at[HOME] == description) {
            deliver(queues[i]);
            return;
        }
}

/* The program learns from its next call that the registration ended with its connection. */
void give_last_notice(struct object *o)
{
    if (o->registered) deliver(o);
}

void take_notices(void)
{
    int what, error = errno;
    uint64_t description;
    struct mqs *c = sides[HOME].connection;
    while (registrations && c && mqs_next_unasked(c, &what, &description) == 1) hand_on(what, description);
    for (int i = 0; registrations && c && mqs_lost(c) && i < queues_top; i++)
        if (queues[i]) give_last_notice(queues[i]);
    errno = error;
}

/* Those that stood before the answer that was taken last, and none that came behind it. */
void take_earlier_notices(void)
{
    int what;
    uint64_t description;
    struct mqs *c = sides[HOME].connection;
    while (mqsi_kept(c) > 0 && mqs_next_unasked(c, &what, &description) == 1) hand_on(what, description);
}

/* ---- Registrations ---- */

void end_registration(struct object *o)
{
    if (!o->registered) return;
    o->registered = 0;
    registrations--;
    if (o->event.sigev_notify == SIGEV_THREAD) pthread_attr_destroy(&o->attributes);
}

/* POSIX takes the thread's attributes as they are now. Those of a stack of the program's own and of processors aren't copied. */
static int copy_attributes(pthread_attr_t *to, const pthread_attr_t *from)
{
    size_t size;
    int number;
    struct sched_param parameters;
    int error = pthread_attr_init(to);
    if (error) return error;
    pthread_attr_setdetachstate(to, PTHREAD_CREATE_DETACHED);
    if (!from) return 0;
    if (!pthread_attr_getstacksize(from, &size)) pthread_attr_setstacksize(to, size);
    if (!pthread_attr_getguardsize(from, &size)) pthread_attr_setguardsize(to, size);
    if (!pthread_attr_getinheritsched(from, &number)) pthread_attr_setinheritsched(to, number);
    if (!pthread_attr_getschedpolicy(from, &number)) pthread_attr_setschedpolicy(to, number);
    if (!pthread_attr_getschedparam(from, &parameters)) pthread_attr_setschedparam(to, &parameters);
    return 0;
}

/* Keeps what is to be done, for a registration that the server has accepted. */
int keep_event(struct object *o, const struct sigevent *event)
{
    o->event = *event;
    if (event->sigev_notify == SIGEV_THREAD) {
        int error = copy_attributes(&o->attributes, event->sigev_notify_attributes);
        if (error) return fail(error);
    }
    o->registered = 1;
    registrations++;
    return 0;
}

/* ---- The listener ---- */

static int home_fd(void)
{
    struct mqs *c = sides[HOME].connection;
    return registrations && c && !mqs_lost(c) ? mqs_fd(c) : -1;
}

/* Whether an end of the pipe is still there: a program may close all files from a number on. */
static int is_wake(int fd)
{
    struct stat file;
    return fd >= 0 && fstat(fd, &file) == 0 && file.st_dev == wake.device && file.st_ino == wake.inode;
}

static void close_wake(void)
{
    if (is_wake(wake.from)) close(wake.from);
    if (is_wake(wake.to)) close(wake.to);
    wake.from = wake.to = -1;
}

static int open_wake(void)
{
    int ends[2];
    struct stat file;
    if (pipe2(ends, O_CLOEXEC | O_NONBLOCK) < 0) return -1;
    int from = fcntl(ends[0], F_DUPFD_CLOEXEC, FIRST_FD), to = fcntl(ends[1], F_DUPFD_CLOEXEC, FIRST_FD);
    wake.from = from < 0 ? ends[0] : from;
    wake.to = to < 0 ? ends[1] : to;
    if (from >= 0) close(ends[0]);
    if (to >= 0) close(ends[1]);
    fstat(wake.from, &file);
    wake.device = file.st_dev;
    wake.inode = file.st_ino;
    return 0;
}

static void wake_listener(void)
{
    char one = 1;
    if (is_wake(wake.to) && write(wake.to, &one, 1) < 0) return;   /* it is full of such wishes */
}

/* Without its pipe the listener looks at home alone. */
static void *listen_on(void *arg)
{
    struct entry e;
    char wishes[64];
    (void)arg;
    for (;;) {
        enter(&e);
        take_notices();
        struct pollfd p[2] = { { is_wake(wake.from) ? wake.from : -1, POLLIN, 0 }, { home_fd(), POLLIN, 0 } };
        leave(&e);
        poll(p, 2, p[0].fd < 0 ? WITHOUT_PIPE_MS : -1);
        if (p[0].revents && is_wake(p[0].fd) && read(p[0].fd, wishes, sizeof wishes) < 0 && errno != EAGAIN) return NULL;
    }
}

/* Wakes the listener for what was read and isn't taken: the socket doesn't wake it any more. Nothing is delivered here, since a
 * handler of a signal may be in sem_post. */
void pass_on_notices(void)
{
    struct mqs *c = sides[HOME].connection;
    if (registrations && listening && c && mqsi_look(c) > 0) wake_listener();
}

/* Starts the listener, or has it look at home again. It inherits the mask, in which all signals are blocked. */
int start_listening(void)
{
    pthread_t thread;
    if (listening) {
        wake_listener();
        return 0;
    }
    if (wake.from < 0 && open_wake() < 0) return -1;
    int error = pthread_create(&thread, NULL, listen_on, NULL);
    if (error) return fail(error);
    pthread_detach(thread);
    listening = 1;
    return 0;
}

/* In a child of fork, which has no such thread. */
void forget_listener(void)
{
    close_wake();
    listening = 0;
}
