/* waits.c: where calls wait. A wait for an answer that comes at once is a poll, without the lock. While the answer is late the thread looks for
 * signals 20 times a second: one that ends the program ends it, and handlers run once the call has let home go. A call that blocks waits for
 * its answer and for signals at once. */
#include "preload.h"

#include <errno.h>
#include <poll.h>

enum { SLICE_NS = 50000000, IN_VAIN_MOST = 1000 };

static struct timespec duration(int64_t nanoseconds)
{
    if (nanoseconds < 0) nanoseconds = 0;
    return (struct timespec){ nanoseconds / 1000000000, nanoseconds % 1000000000 };
}

static int poll_unlocked(struct mqs *c, short events, deadline until, struct entry *e)
{
    struct pollfd p = { mqs_fd(c), events, 0 };
    struct timespec left = duration(until - mqsi_now());
    int has_lock = e && e->has_lock;
    if (has_lock) unlock_state(e);
    int n = ppoll(&p, 1, &left, NULL), error = errno;
    if (has_lock) lock_state(e);
    errno = error;
    return n;
}

/* ---- Answers to calls that don't block ---- */

/* Not while a part of a request is out to home. One to a side is never served if that ends. */
static int can_leave(const struct mqs *c, short events) { return events == POLLIN || c != sides[HOME].connection; }

/* Ends the call before its answer is there: -1. 0: there is no memory for that. */
static int leave_answer(struct mqs *c, const struct entry *e, short events, deadline end, int why)
{
    if (c == sides[HOME].connection) {
        if (c->away) return fail(why);   /* another call's */
        struct away *a = mqsi_go_away(c, end);
        if (!a) return 0;
        a->is_left = 1;
    } else if (!e->blocked || events != POLLIN) {
        mqsi_lose(c, ECONNABORTED);
    }
    return fail(why);
}

/* The handlers have run. 1: the call goes on. -1: it is over. */
static int go_on(struct mqs *c, struct away *a, struct entry *e, int ends)
{
    int r = 0;
    if (e->is_left || e->forks != forks) return fail(ends || e->is_left ? EINTR : ECONNRESET);
    if (!ends || (a && a->size > 0)) r = await_home(e);
    else r = fail(EINTR);
    if (e->is_left || e->forks != forks) return fail(r < 0 ? errno : ECONNRESET);
    e->away = NULL;
    e->is_away = 0;
    away_from_home--;
    if (r < 0 && a) a->is_left = 1;
    if (r < 0) return -1;
    if (!a) return fail(EAGAIN);
    return mqsi_come_back(c, a) < 0 ? -1 : 1;
}

/* Lets signals in while home's answer is to come: others may ask home meanwhile. */
static int hear_signals(struct mqs *c, struct entry *e, short events, deadline end)
{
    int found = look_at_signals(e);
    if ((found & ENDING) && e->may_end && e->blocked && events != POLLIN) return leave_answer(c, e, events, end, EINTR);
    if (!(found & HANDLERS) || events != POLLIN || !e->has_home || c != sides[HOME].connection) return 0;
    struct away *a = NULL;
    if (!c->away && !(a = mqsi_go_away(c, end))) return 0;
    e->away = a;
    e->is_away = 1;
    away_from_home++;
    release_home(e);
    unlock_state(e);
    found = hear(e);
    lock_state(e);
    return go_on(c, a, e, (found & ENDING) && e->may_end);
}

/* libmqserve calls this in place of its own wait. 0: it is to look again. */
int wait_for_answer(struct mqs *c, short events, deadline end)
{
    struct entry *e = innermost();
    for (;;) {
        deadline until = mqsi_now() + SLICE_NS;
        if (e && e->may_end && e->end < until && can_leave(c, events)) until = e->end;
        int n = poll_unlocked(c, events, end < until ? end : until, e), r = 0;
        if (n > 0) return 0;
        if (n < 0 && errno != EINTR) return mqsi_lose(c, ECONNRESET);
        deadline now = mqsi_now();
        if (now >= end) return mqsi_lose(c, ECONNABORTED);
        if (e && e->may_end && now >= e->end && can_leave(c, events)) r = leave_answer(c, e, events, end, ETIMEDOUT);
        else if (e) r = hear_signals(c, e, events, end);
        if (r) return r < 0 ? -1 : 0;
    }
}

/* ---- Calls that block ---- */

/* The thread may be cancelled here, if its call is a cancellation point. */
static int poll_open(struct pollfd *p, nfds_t count, const struct timespec *left, struct entry *e)
{
    int n, old, error;
    pthread_cleanup_push(on_unwind, e);
    if (e->may_end) pthread_setcancelstate(e->cancel, &old);
    n = ppoll(p, count, left, NULL);
    error = errno;
    pthread_setcancelstate(PTHREAD_CANCEL_DISABLE, &old);
    pthread_cleanup_pop(0);
    errno = error;
    return n;
}

/* 1: the answer is there, or -1. 0: it isn't. */
static int look(struct mqs *c, int side, const struct pollfd *p)
{
    if (p->revents && (!has_socket(side) || mqsi_fill(c) < 0)) return -1;
    return mqsi_front(c);
}

/* Whether a signal ends the call; errno says how. */
static int is_ended(struct entry *e, int found, int restarts)
{
    int is_over = (found & ENDING) || (!restarts && (found & HANDLERS));
    if (is_over || e->is_left) return fail(EINTR);
    return e->forks != forks ? fail(ECONNRESET) : 0;
}

/* Waits for the answer of the call that blocks on the side. -1: EINTR, ETIMEDOUT, or the connection is lost. */
int wait_on_side(int side, clockid_t clock, const struct timespec *until, struct entry *e, int restarts)
{
    struct mqs *c = sides[side].connection;
    struct pollfd p[2] = { { mqs_fd(c), POLLIN, 0 }, { signals_of(side, e), POLLIN, 0 } };
    for (int was_late = 0, in_vain = 0;;) {
        int there = look(c, side, &p[0]);
        if (there) return there < 0 ? -1 : 0;
        /* Notices don't put the end off: a moment that has passed allows one more look. */
        if (was_late) return fail(ETIMEDOUT);
        struct timespec left = until ? mqsi_time_left(clock, until) : duration(SLICE_NS);
        was_late = until && left.tv_sec == 0 && left.tv_nsec == 0;
        if (p[1].fd < 0 && (left.tv_sec > 0 || left.tv_nsec > SLICE_NS)) left = duration(SLICE_NS);
        int n = poll_open(p, p[1].fd < 0 ? 1 : 2, until || p[1].fd < 0 ? &left : NULL, e);
        if (n < 0 && errno != EINTR) return mqsi_lose(c, ECONNRESET);
        if (n <= 0) p[0].revents = p[1].revents = 0;
        if (n == 0 && p[1].fd >= 0) continue;
        int found = p[0].revents ? 0 : hear(e);
        if (is_ended(e, found, restarts)) return -1;
        /* The program may have closed the file. Another thread may have taken the signal. */
        if ((p[1].revents & ~POLLIN) || (p[1].revents && !found && ++in_vain == IN_VAIN_MOST)) p[1].fd = -1;
    }
}

/* Waits for a while, and tells which signals came. */
int pause_open(const struct timespec *pause, struct entry *e)
{
    poll_open(NULL, 0, pause, e);
    return hear(e);
}
