/* again.c: going on after a restart of the server, where MQSERVE_RECONNECT asks for it. A call that lost its connection is made again if its
 * request never left, or if it does no harm twice. For other calls it is unknown whether they were done: they fail once, by ECONNABORTED. */
#include "preload.h"

#include <errno.h>
#include <stdatomic.h>

enum { NOTIFY_TAKEN = 28, FIRST_PAUSE_NS = 10000000, LAST_PAUSE_NS = 64000000 };

static atomic_ulong repeated;

PUBLIC unsigned long mqserve_receives_repeated(void);
unsigned long mqserve_receives_repeated(void) { return repeated; }

void count_receive(const struct object *o)
{
    repeated++;
    say(o ? o->name : "a queue", "the outcome of a receive is unknown: a message may be lost");
}

void forget_receives(void) { repeated = 0; }

/* ---- Losses ---- */

enum loss loss_at(int side)
{
    const struct mqs *c = sides[side].connection;
    if (!c) return UNSENT;
    if (!mqs_lost(c)) return NOT_LOST;
    return c->is_out ? UNKNOWN : UNSENT;
}

/* Whether a lost home stays until an outer call of this thread has seen the loss. */
static int is_held(const struct entry *e)
{
    for (e = e->outer; e; e = e->outer)
        if (e->is_away) return 1;
    return 0;
}

static int is_final(const struct entry *e, int error)
{
    if (e->is_left || e->forks != forks || is_held(e) || (e->object && e->object->lost)) return 1;
    return e->tries.loss == UNSENT && !sides[HOME].connection && !mqsi_may_come(error);
}

/* ---- Tries ---- */

void begin_tries(struct entry *e, int64_t patience)
{
    e->tries = (struct tries){ .pause_ns = FIRST_PAUSE_NS };
    if (!settings.reconnect) return;
    deadline end = mqsi_now() + patience;
    e->tries.end = e->may_end && e->end < end ? e->end : end;
}

static int stop(int error)
{
    errno = error;
    return 0;
}

/* Whether a call that failed is to be made again. Meanwhile it has paused, and another may have had home. If not, errno says why. */
int goes_on(struct entry *e, enum repeat repeat)
{
    struct tries *t = &e->tries;
    int error = errno;
    long pause_ns = t->pause_ns;
    if (!settings.reconnect || t->loss == NOT_LOST) return 0;
    if (t->loss == UNKNOWN && (repeat == UNSAFE || t->is_over)) return stop(ECONNABORTED);
    if (is_final(e, error)) return 0;
    if (t->loss == UNKNOWN && repeat == COUNTED) count_receive(e->object);
    if (t->loss == UNKNOWN && repeat == SAFE) t->is_unknown = 1;
    if (mqsi_now() + pause_ns >= t->end) return stop(t->is_unknown ? ECONNABORTED : t->is_open ? error : ECONNRESET);
    if (t->pause_ns < LAST_PAUSE_NS) t->pause_ns *= 2;
    return pause_apart(pause_ns, e, !t->ends_by_handlers) == 0;
}

static int make_tries(struct entry *e, enum repeat repeat, int (*once)(void *arg), void *arg)
{
    int r;
    do {
        r = once(arg);
        e->tries.loss = r < 0 ? loss_at(HOME) : NOT_LOST;
    } while (r < 0 && goes_on(e, repeat));
    return r;
}

int at_home(struct entry *e, enum repeat repeat, int (*once)(void *arg), void *arg)
{
    begin_tries(e, settings.reconnect);
    return make_tries(e, repeat, once, arg);
}

/* As long as an open may wait for a server that isn't there. */
int open_at_home(struct entry *e, int oflag, int (*once)(void *arg), void *arg)
{
    begin_tries(e, settings.hello_ms * INT64_C(1000000));
    e->tries.is_open = 1;
    return make_tries(e, open_flags(oflag) & MQS_EXCLUSIVE ? UNSAFE : SAFE, once, arg);
}

/* The registration of the session before may live on for a while, and then refuses this process's own. */
int outlives(struct entry *e)
{
    const struct mqs *c = sides[HOME].connection;
    if (!settings.reconnect || !c || mqs_lost(c) || mqs_rule(c) != NOTIFY_TAKEN) return 0;
    if (mqsi_now() >= home_lost_at() + settings.reconnect) return 0;
    return pause_apart(FIRST_PAUSE_NS, e, 1) == 0;
}
