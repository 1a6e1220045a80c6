/* signals.c: the signals that come while a thread makes a call. They are blocked, and let in where the call waits: a handler finds
 * the library there as it is between two calls. Those that tell of a fault of the thread's own are never blocked. */
#include "preload.h"

#include <errno.h>
#include <fcntl.h>
#include <poll.h>
#include <string.h>
#include <sys/signalfd.h>
#include <unistd.h>

static void fill(sigset_t *set)
{
    sigfillset(set);
    sigdelset(set, SIGSEGV);
    sigdelset(set, SIGBUS);
    sigdelset(set, SIGFPE);
    sigdelset(set, SIGILL);
}

void keep_signals_out(sigset_t *before)
{
    sigset_t all;
    fill(&all);
    pthread_sigmask(SIG_SETMASK, &all, before);
}

/* How the program has set a signal. */
static int meaning(int signal)
{
    struct sigaction action;
    if (sigaction(signal, NULL, &action) < 0) return 0;
    if (action.sa_handler == SIG_DFL || action.sa_handler == SIG_IGN) return DEFAULTS;
    return action.sa_flags & SA_RESTART ? HANDLERS : HANDLERS | ENDING;
}

/* Looks which signals are there for the thread. Those without a handler are let in at once: they end the program, stop it or do nothing. */
int look_at_signals(const struct entry *e)
{
    sigset_t there, defaults, old;
    int found = 0, error = errno;
    sigemptyset(&defaults);
    if (sigpending(&there) < 0) return 0;   /* glibc's sigisemptyset doesn't see real-time signals */
    for (int signal = 1; signal <= SIGRTMAX; signal++) {
        if (sigismember(&there, signal) != 1 || sigismember(&e->mask, signal) == 1) continue;
        int one = meaning(signal);
        found |= one;
        if (one == DEFAULTS) sigaddset(&defaults, signal);
    }
    if (found & DEFAULTS) {
        pthread_sigmask(SIG_UNBLOCK, &defaults, &old);
        pthread_sigmask(SIG_SETMASK, &old, NULL);
    }
    errno = error;
    return found;
}

/* Lets one in, and tells how it is set. A poll under the thread's own mask tells whether a handler ran: another thread may have taken the signal
 * meanwhile. The caller has neither home nor the lock. A handler may fork, jump, cancel the thread or end it, and make any call. */
int hear(struct entry *e)
{
    static const struct timespec none = { 0, 0 };
    int found = look_at_signals(e), old, has_run, error = errno;
    if (!(found & HANDLERS)) return found;
    pthread_cleanup_push(on_unwind, e);
    if (e->may_end) pthread_setcancelstate(e->cancel, &old);   /* other calls are no cancellation points */
    has_run = ppoll(NULL, 0, &none, &e->mask) < 0 && errno == EINTR;
    pthread_setcancelstate(PTHREAD_CANCEL_DISABLE, &old);
    pthread_cleanup_pop(0);
    errno = error;
    return has_run ? found : found & DEFAULTS;
}

/* A file that is readable while a signal is there which the thread has let in; -1: none can be had. */
int signals_of(int side, const struct entry *e)
{
    struct side *s = &sides[side];
    sigset_t wanted;
    fill(&wanted);
    for (int signal = 1; signal <= SIGRTMAX; signal++)
        if (sigismember(&e->mask, signal) == 1) sigdelset(&wanted, signal);
    if (s->signals > 0 && !memcmp(&s->mask, &e->mask, sizeof s->mask)) return s->signals;
    s->mask = e->mask;
    if (s->signals > 0 && signalfd(s->signals, &wanted, 0) == s->signals) return s->signals;
    s->signals = 0;   /* it was closed by the program */
    int fd = signalfd(-1, &wanted, SFD_CLOEXEC | SFD_NONBLOCK);
    if (fd < 0) return -1;
    s->signals = fcntl(fd, F_DUPFD_CLOEXEC, FIRST_FD);
    close(fd);
    if (s->signals < 0) s->signals = 0;
    return s->signals > 0 ? s->signals : -1;
}
