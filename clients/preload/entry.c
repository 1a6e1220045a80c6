/* entry.c: calls, one lock for all that this library keeps, and home, which one call at a time asks. While a thread makes a call its signals
 * are blocked, and it isn't cancelled. Where the call waits, its thread has let the lock go, and looks for signals (waits.c). So a handler
 * may call sem_post, as POSIX promises, and nothing is left half done; but a child of fork connects at its first call, which uses the heap. */
#include "preload.h"

#include <errno.h>
#include <unistd.h>

enum { SLICE_NS = 50000000, LATE_S = 2 };

static pthread_mutex_t lock = PTHREAD_MUTEX_INITIALIZER;
static pthread_cond_t freed;    /* home */
static int waiting;             /* for home */

/* In the thread's own block, which a handler may use at any time. */
static _Thread_local struct entry *newest __attribute__((tls_model("initial-exec")));

int fail(int error)
{
    errno = error;
    return -1;
}

/* ---- The lock ---- */

void lock_state(struct entry *e)
{
    pthread_mutex_lock(&lock);
    e->has_lock = 1;
}

void unlock_state(struct entry *e)
{
    e->has_lock = 0;
    pthread_mutex_unlock(&lock);
}

/* At first, and in a new process whose parent's threads may have had it. */
void renew_lock(void)
{
    pthread_condattr_t by_clock;
    pthread_mutex_init(&lock, NULL);
    pthread_condattr_init(&by_clock);
    pthread_condattr_setclock(&by_clock, CLOCK_MONOTONIC);
    pthread_cond_init(&freed, &by_clock);
    waiting = 0;
}

void hold(struct entry *e)
{
    *e = (struct entry){ .end = INT64_MAX, .forks = forks };
    pthread_setcancelstate(PTHREAD_CANCEL_DISABLE, &e->cancel);
    keep_signals_out(&e->mask);
    lock_state(e);
}

void let_go(struct entry *e)
{
    int error = errno, old;
    unlock_state(e);
    pthread_sigmask(SIG_SETMASK, &e->mask, NULL);
    pthread_setcancelstate(e->cancel, &old);
    errno = error;
}

/* ---- Home ---- */

static void await_freed(void)
{
    struct timespec until;
    clock_gettime(CLOCK_MONOTONIC, &until);
    until.tv_nsec += SLICE_NS;
    until.tv_sec += until.tv_nsec / 1000000000;
    until.tv_nsec %= 1000000000;
    waiting++;
    pthread_cond_timedwait(&freed, &lock, &until);
    waiting--;
}

/* Waits until no other call asks home. Handlers of signals run meanwhile. */
int await_home(struct entry *e)
{
    while (sides[HOME].busy) {
        await_freed();
        if (!sides[HOME].busy) break;
        int heard = look_at_signals(e);
        if (heard) {
            unlock_state(e);
            heard = hear(e);
            lock_state(e);
        }
        if (e->is_left || ((heard & ENDING) && e->may_end)) return fail(EINTR);
        if (e->may_end && mqsi_now() >= e->end) return fail(ETIMEDOUT);
    }
    sides[HOME].busy = e->has_home = 1;
    return 0;
}

/* Takes home, once all that was asked there before has been answered. */
int take_home(struct entry *e)
{
    if (await_home(e) < 0) return -1;
    look_at_home();
    for (struct mqs *c; e->has_home && (c = sides[HOME].connection) && !mqs_lost(c) && c->away;) {
        struct away *a = mqsi_settle_away(c);
        if (a && a->is_left) make_good(c, a);
        if (a || errno == EAGAIN || mqs_lost(c)) continue;
        int error = errno;
        if (e->has_home) release_home(e);
        return fail(error);
    }
    if (e->has_home) reap(e);
    if (e->has_home) close_late();
    return e->has_home ? 0 : fail(EINTR);   /* a signal ended the call while it put back another's message */
}

void release_home(struct entry *e)
{
    pass_on_notices();
    sides[HOME].busy = e->has_home = 0;
    if (waiting) pthread_cond_signal(&freed);
}

/* Lets home and the lock go, and signals in, for long work that touches nothing of the library's. */
void step_out(struct entry *e)
{
    release_home(e);
    unlock_state(e);
    pthread_sigmask(SIG_SETMASK, &e->mask, NULL);
}

void step_in(struct entry *e)
{
    int error = errno;
    keep_signals_out(NULL);
    lock_state(e);
    while (await_home(e) < 0) {}
    errno = error;
}

/* ---- Calls ---- */

struct entry *innermost(void) { return newest; }
void set_innermost(struct entry *e) { newest = e; }

static void begin(struct entry *e)
{
    if (owner != getpid()) recover_from_clone();
    hold(e);
    e->outer = newest;
    newest = e;
}

void enter(struct entry *e)
{
    begin(e);
    while (take_home(e) < 0) {}
}

/* Without home, for a thread that leaves its calls. */
void enter_apart(struct entry *e, deadline end)
{
    begin(e);
    e->may_end = 1;
    e->end = end;
}

int enter_within(struct entry *e, deadline end)
{
    enter_apart(e, end);
    if (take_home(e) == 0) return 0;
    leave(e);
    return -1;
}

/* A server is given two seconds after the moment. By then this side has ended the call. */
int enter_until(struct entry *e, const struct timespec *until)
{
    struct timespec now;
    deadline end = INT64_MAX;
    if (until) {
        clock_gettime(CLOCK_REALTIME, &now);
        int64_t seconds = until->tv_sec < now.tv_sec ? 0 : until->tv_sec - now.tv_sec;
        if (seconds < INT32_MAX) end = mqsi_now() + (seconds + LATE_S) * 1000000000 + until->tv_nsec - now.tv_nsec;
    }
    return enter_within(e, end);
}

/* Has the object stay until the call's end, even if another thread closes it. */
void pin(struct entry *e, struct object *o)
{
    o->references++;
    o->calls++;
    e->object = o;
}

void leave(struct entry *e)
{
    int error = errno;
    struct object *o = e->is_left ? NULL : e->object;
    if (o && o->references == 1 && !e->has_home && !sides[HOME].busy) take_home(e);   /* it is closed now, if that can be */
    if (o) unpin(e);
    if (e->has_home) release_home(e);
    newest = e->outer;
    let_go(e);
    errno = error;
}
