/* blocking.c: sends, receives and waits. First home is asked, where nothing blocks. What would block goes to a side, and what has a moment
 * may go there at once. */
#include "preload.h"

#include <errno.h>

enum { WOULD_BLOCK = 29, FIRST_PAUSE_NS = 1000000, LAST_PAUSE_NS = 64000000, GRACE_NS = 100000000, LATE_S = 2 };

/* ---- On home ---- */

static int start(struct mqs *c, uint64_t description, const struct job *j, const struct timespec *until)
{
    if (j->operation == SENDS) return mqsi_start_send(c, description, j->data, j->size, j->priority, until);
    if (j->operation == RECEIVES) return mqsi_start_receive(c, description, j->size, until);
    return mqsi_start_sem_wait(c, description, until);
}

static ssize_t finish(struct mqs *c, struct job *j)
{
    return j->operation == RECEIVES ? mqs_finish_receive(c, j->data, j->size, &j->priority) : mqs_finish(c);
}

/* The kernel sends a notice's signal before mq_send returns. The notice of this send stands before the answer of a further call. */
static void take_own_notice(struct mqs *c, uint64_t description)
{
    struct mqs_state state;
    take_notices();
    if (registrations && mqs_mq_getattr(c, description, &state) == 0) take_notices();
}

/* Asks home. would_block says whether the call has to wait. */
static ssize_t attempt(struct job *j, int *would_block)
{
    *would_block = 0;
    if (bring(j->object, HOME) < 0) {
        innermost()->tries.loss = loss_at(HOME);
        return -1;
    }
    struct mqs *c = sides[HOME].connection;
    uint64_t description = j->object->at[HOME];
    ssize_t r = -1;
    if (j->operation == WAITS) r = mqs_sem_trywait(c, description);
    else if (start(c, description, j, NULL) == 0 && mqs_wait_bound(c) == 0) r = finish(c, j);
    int error = errno;
    if (r < 0) innermost()->tries.loss = loss_at(HOME);
    *would_block = r < 0 && error == EAGAIN && mqs_rule(c) == WOULD_BLOCK;
    if (registrations && j->operation == SENDS && r == 0) take_own_notice(c, description);
    errno = error;
    return r;
}

/* ---- On a side ---- */

/* Ends the call after its wait. 1: it is withdrawn. 0: its answer is there. -1: errno says why. If the server says nothing, the call is
 * left. */
static int settle(const struct blocked *b, int why, struct entry *e)
{
    struct mqs *c = sides[b->side].connection;
    deadline end = e->end;
    if (mqs_lost(c)) return fail(mqs_lost(c));
    e->end = mqsi_now() + GRACE_NS;
    int r = mqs_stop(c);
    e->end = end;
    e->tries.is_over = mqs_lost(c) && why == EINTR;
    if (r >= 0 || mqs_lost(c)) return r;
    lock_state(e);
    leave_side(b->side, b->job->object, b->job->operation);
    unlock_state(e);
    e->has_left_side = 1;
    return fail(why);
}

/* As on Linux, any handler ends a semaphore's wait with a moment, and a handler without SA_RESTART ends other calls. A server that has the
 * moment is given two seconds more. If it is later than that, its clock is another, or it stands still. */
static int wait_for_end(const struct blocked *b, const struct timespec *until, struct entry *e)
{
    struct mqs *c = sides[b->side].connection;
    struct timespec last;
    int restarts = !until || b->job->operation != WAITS;
    if (wait_on_side(b->side, CLOCK_REALTIME, until, e, restarts) == 0) return 0;
    if (errno != ETIMEDOUT || !mqsi_is_timed(c)) return -1;
    clock_gettime(CLOCK_MONOTONIC, &last);
    last.tv_sec += LATE_S;
    if (wait_on_side(b->side, CLOCK_MONOTONIC, &last, e, restarts) == 0) return 0;
    if (errno == ETIMEDOUT) mqs_set_shared_clock(c, 0);
    return -1;
}

/* The lock isn't held: the side is this call's alone. */
static ssize_t block_once(struct job *j, int side, const struct timespec *until, struct entry *e)
{
    struct mqs *c = sides[side].connection;
    struct blocked b = { .job = j, .side = side };
    e->blocked = &b;
    int r = start(c, j->object->at[side], j, until);
    if (r == 0 && wait_for_end(&b, until, e) < 0) {
        int why = errno;
        r = e->is_left || e->forks != forks ? fail(why) : settle(&b, why, e);
        if (r > 0) errno = why;
    }
    e->blocked = NULL;
    return r == 0 ? finish(c, j) : -1;
}

static ssize_t block_on_side(struct job *j, int side, const struct timespec *until, struct entry *e)
{
    ssize_t r;
    do r = block_once(j, side, until, e);
    while (r < 0 && !e->is_left && !e->has_left_side && e->forks == forks && mqsi_was_early(sides[side].connection, until));
    return r;
}

/* ---- Without a side ---- */

/* Whether the moment has come; else no pause is longer than the time until then. */
static int is_over(const struct timespec *until, long *pause_ns)
{
    struct timespec now;
    if (!until) return 0;
    clock_gettime(CLOCK_REALTIME, &now);
    if (until->tv_sec != now.tv_sec && until->tv_sec != now.tv_sec + 1) return until->tv_sec < now.tv_sec;
    int64_t left = (until->tv_sec - now.tv_sec) * INT64_C(1000000000) + until->tv_nsec - now.tv_nsec;
    if (left > 0 && left < *pause_ns) *pause_ns = (long)left;
    return left <= 0;
}

/* Home is another's meanwhile. A call that may not end goes on whatever signals come. */
int pause_apart(long pause_ns, struct entry *e, int restarts)
{
    struct timespec pause = { 0, pause_ns };
    if (e->has_home) release_home(e);
    unlock_state(e);
    int found = pause_open(&pause, e);
    lock_state(e);
    if (e->is_left || (e->may_end && ((found & ENDING) || (!restarts && (found & HANDLERS))))) return fail(EINTR);
    if (e->forks != forks) return fail(ECONNRESET);
    int r;
    do r = take_home(e);
    while (r < 0 && !e->may_end && !e->is_left && e->forks == forks);
    return r;
}

static ssize_t ask_again(struct job *j, const struct timespec *until, struct entry *e)
{
    ssize_t r;
    int would_block = 1, restarts = !until || j->operation != WAITS;
    for (long pause_ns = FIRST_PAUSE_NS; would_block; pause_ns = pause_ns < LAST_PAUSE_NS ? 2 * pause_ns : pause_ns) {
        long this_pause = pause_ns;
        if (is_over(until, &this_pause)) r = fail(ETIMEDOUT);
        else r = pause_apart(this_pause, e, restarts);
        if (r < 0) break;
        r = attempt(j, &would_block);
    }
    return r;
}

/* ---- All of it ---- */

static int is_open_at_home(const struct object *o)
{
    struct mqs *c = sides[HOME].connection;
    return c && !mqs_lost(c) && !o->lost && o->at[HOME] != NO_DESCRIPTION;
}

/* The side on which a call with a moment is made without asking home first, or 0: one request then does, whether it blocks or not. The
 * server serves it there as it would at home, and a signal or a cancellation while its answer is on the way is settled as while it blocks.
 * Home comes first for
 * - what may not block: O_NONBLOCK is home's, and a moment that has passed is one request there too
 * - what shows that home was lost, or that the object isn't open there
 * - a send while there are registrations: its own notice must come before it returns, and comes to home
 * - a call that no side can take at once, since most calls don't block
 * - a server that doesn't get moments, where a call that blocks takes an interrupt besides */
static int side_at_once(const struct job *j, const struct timespec *until)
{
    struct object *o = j->object;
    long any_pause = LAST_PAUSE_NS;
    if (!until || is_nonblock(o) || is_over(until, &any_pause) || !is_open_at_home(o)) return 0;
    if (j->operation == SENDS && registrations) return 0;
    int side = open_side(o);
    return side && mqsi_shares_clock(sides[side].connection) ? side : 0;
}

static ssize_t block(struct job *j, int side, const struct timespec *until, struct entry *e)
{
    if (!side) return ask_again(j, until, e);
    sides[side].busy = 1;
    release_home(e);
    unlock_state(e);
    ssize_t r = block_on_side(j, side, until, e);
    int error = errno;
    lock_state(e);
    if (!e->is_left && !e->has_left_side && e->forks == forks) {
        if (r < 0) e->tries.loss = loss_at(side);
        free_side(side);
    }
    errno = error;
    return r;
}

static ssize_t perform_once(struct job *j, const struct timespec *until, struct entry *e)
{
    struct object *o = j->object;
    int would_block, side = side_at_once(j, until);
    long any_pause = LAST_PAUSE_NS;
    if (!side) {
        ssize_t r = attempt(j, &would_block);
        if (!would_block) return r;
        if (is_nonblock(o)) return fail(EAGAIN);
        if (is_over(until, &any_pause)) return fail(ETIMEDOUT);
        side = side_for(o);
    }
    return block(j, side, until, e);
}

static ssize_t make_tries(struct job *j, const struct timespec *until, struct entry *e)
{
    ssize_t r;
    begin_tries(e, settings.reconnect);
    e->tries.ends_by_handlers = until && j->operation == WAITS;
    do {
        e->tries.loss = NOT_LOST;
        r = e->has_home || take_home(e) == 0 ? perform_once(j, until, e) : -1;
    } while (r < 0 && goes_on(e, j->operation == RECEIVES ? COUNTED : UNSAFE));
    return r;
}

/* The handler of a signal may have forked: the call begins anew in the child, whose sessions are others. */
ssize_t perform(struct job *j, const struct timespec *until, struct entry *e)
{
    ssize_t r;
    do {
        e->forks = forks;
        r = make_tries(j, until, e);
    } while (r < 0 && e->forks != forks && !e->is_left && errno != EINTR);
    return r;
}
