/* again.c: going on after a loss. A request that never left is sent over a new connection, and so is one that does no harm twice. For other
 * calls it is unknown whether they were done: they fail once, by ECONNABORTED. */
#include "again.h"

#include <errno.h>
#include <fcntl.h>
#include <stdlib.h>
#include <unistd.h>

enum { OP_AT = 4, UNASKED_MOST = 16, NOTIFY_TAKEN = 28, LATE_S = 2, MS_NS = 1000000, FIRST_PAUSE_MS = 10, LAST_PAUSE_MS = 100 };

static const double longest_s = 1e9;

static int is_on(const struct mqs *c) { return c->again && c->again->patience > 0; }

/* ---- Time ---- */

/* A call with a moment goes on until two seconds after it at most. */
static deadline end_of(int64_t patience, const struct timespec *until)
{
    struct timespec wall;
    deadline end = mqsi_now() + patience;
    if (!until) return end;
    clock_gettime(CLOCK_REALTIME, &wall);
    int64_t seconds = until->tv_sec < wall.tv_sec ? 0 : until->tv_sec - wall.tv_sec;
    if (seconds >= longest_s) return end;
    deadline last = mqsi_now() + (seconds + LATE_S) * INT64_C(1000000000) + until->tv_nsec - wall.tv_nsec;
    return last < end ? last : end;
}

void mqsi_begin(struct mqs *c, const struct timespec *until, int can_end)
{
    struct again *g = c->again;
    if (!g) return;
    g->end = end_of(g->patience, until);
    g->pause = FIRST_PAUSE_MS * MS_NS;
    g->can_end = can_end;
    g->is_over = g->is_unknown = 0;
}

static int give_up(struct again *g, int error)
{
    g->is_over = 1;
    return mqsi_fail(error);
}

static struct timespec duration(int64_t nanoseconds) { return (struct timespec){ nanoseconds / 1000000000, nanoseconds % 1000000000 }; }

/* Between two tries. A handler's end ends a call that blocks, whatever SA_RESTART says. */
static int pause_between(struct again *g)
{
    int64_t left = g->end - mqsi_now(), pause = g->pause < left ? g->pause : left;
    if (left <= 0) return give_up(g, g->is_unknown ? ECONNABORTED : ECONNRESET);
    if (g->pause < LAST_PAUSE_MS * MS_NS) g->pause *= 2;
    struct timespec rest = duration(pause);
    while (nanosleep(&rest, &rest) < 0)
        if (g->can_end) return give_up(g, g->is_unknown ? ECONNABORTED : EINTR);
    return 0;
}

/* ---- A new connection ---- */

int mqsi_may_come(int error)
{
    switch (error) {
    case ECONNREFUSED: case ECONNRESET: case ECONNABORTED: case EPIPE: case ENOENT: case EHOSTUNREACH: case ENETUNREACH: case ETIMEDOUT:
    case EAGAIN:
        return 1;
    default:
        return 0;
    }
}

static struct mqs *connect_within(const struct mqs *c, int64_t left)
{
    int64_t ms = left < MS_NS ? 1 : left / MS_NS;
    int bound = c->bound_ms > 0 && c->bound_ms < ms ? c->bound_ms : ms > INT32_MAX ? INT32_MAX : (int)ms;
    struct mqs *new = mqs_connect(c->address, c->key, bound);
    if (!new || c->mask < 0 || mqs_umask(new, (unsigned)c->mask) >= 0) return new;
    int error = errno;
    mqs_disconnect(new);
    errno = error;
    return NULL;
}

/* The socket's number stays, which the program may poll. */
static void take_socket(struct mqs *c, struct mqs *new)
{
    if (dup3(new->fd, c->fd, O_CLOEXEC) < 0) {
        close(c->fd);
        c->fd = new->fd;
    } else {
        close(new->fd);
    }
    new->fd = -1;
}

static int connect_again(struct mqs *c)
{
    struct mqs *new = connect_within(c, c->again->end - mqsi_now());
    if (!new) return -1;
    take_socket(c, new);
    free(c->in);
    c->in = new->in;
    c->capacity = new->capacity;
    c->from = new->from;
    c->to = new->to;
    c->session = new->session;
    c->lost = c->started = c->is_stopped = c->is_timed = 0;
    c->stale = STALE_NONE;
    c->again->has_ended = 0;
    c->again->sessions++;
    new->in = NULL;
    mqs_disconnect(new);
    return 0;
}

void mqsi_look_for_end(struct mqs *c)
{
    for (int i = 0; i < UNASKED_MOST && !c->lost; i++)
        if (mqsi_front(c) != 0 || mqsi_fill(c) != 1) return;
}

static void end_session(struct mqs *c)
{
    struct again *g = c->again;
    if (g->has_ended) return;
    g->has_ended = 1;
    g->lost_at = mqsi_now();
    mqsi_end_opened(c);
}

static int be_connected(struct mqs *c)
{
    mqsi_look_for_end(c);
    while (c->lost) {
        end_session(c);
        if (connect_again(c) == 0) return 0;
        if (!mqsi_may_come(errno)) return give_up(c->again, errno);
        if (pause_between(c->again) < 0) return -1;
    }
    return 0;
}

int mqsi_renew(struct mqs *c)
{
    if (!is_on(c) || c->started) return (int)mqsi_in_parts(c, mqsi_fail(c->lost));
    end_session(c);
    if (c->count > 0) return 0;
    mqsi_begin(c, NULL, 0);
    return be_connected(c);
}

/* ---- Tries ---- */

int mqsi_prepare(struct mqs *c, struct request *r)
{
    c->rule = c->is_out = 0;
    if (!c->again) return 0;
    if (is_on(c) && be_connected(c) < 0) return -1;
    return r->has_target ? mqsi_translate(c, r) : 0;
}

int mqsi_goes_on(struct mqs *c, enum repeat repeat)
{
    struct again *g = c->again;
    if (!is_on(c) || !c->lost || g->is_over) return 0;
    if (c->is_out && repeat == UNSAFE) {
        give_up(g, ECONNABORTED);
        return 0;
    }
    if (c->is_out && repeat == COUNTED) g->repeated++;
    if (c->is_out && repeat == SAFE) g->is_unknown = 1;
    return pause_between(g) == 0;
}

void mqsi_end_tries(struct mqs *c, int error)
{
    if (is_on(c) && c->lost) give_up(c->again, error);
}

static enum repeat repeat_of(const struct request *r)
{
    switch (r->head[OP_AT]) {
    case SEM_POST: case SEM_TRYWAIT: case MQ_GIVE: return UNSAFE;
    case MQ_OPEN: return r->tail[1] & MQS_EXCLUSIVE ? UNSAFE : SAFE;
    case SEM_OPEN: return r->tail[0] & MQS_EXCLUSIVE ? UNSAFE : SAFE;
    default: return SAFE;
    }
}

int mqsi_ask(struct mqs *c, const struct request *r, struct answer *a, enum answer_op op)
{
    int result;
    mqsi_begin(c, NULL, 0);
    do {
        struct request one = *r;
        result = mqsi_prepare(c, &one) < 0 ? -1 : mqsi_ask_once(c, &one, a, op);
    } while (result < 0 && mqsi_goes_on(c, repeat_of(r)));
    return result;
}

int mqsi_outlives(struct mqs *c)
{
    struct again *g = c->again;
    struct timespec pause = duration(FIRST_PAUSE_MS * MS_NS);
    if (!is_on(c) || c->lost || c->rule != NOTIFY_TAKEN || g->sessions == 0 || mqsi_now() >= g->lost_at + g->patience) return 0;
    nanosleep(&pause, NULL);
    return 1;
}

ssize_t mqsi_in_parts(struct mqs *c, ssize_t result)
{
    if (result < 0 && is_on(c) && c->lost && c->started) errno = ECONNABORTED;
    return result;
}

/* ---- For the program ---- */

int mqs_set_reconnect(struct mqs *c, double seconds)
{
    if (!(seconds >= 0 && seconds <= longest_s) || (seconds > 0 && !c->address)) return mqsi_fail(EINVAL);
    if (seconds > 0 && !c->again && !(c->again = calloc(1, sizeof *c->again))) return -1;
    if (c->again) c->again->patience = (int64_t)(seconds * 1e9);
    return 0;
}

unsigned long mqs_receives_repeated(const struct mqs *c) { return c->again ? c->again->repeated : 0; }

void mqsi_end_again(struct mqs *c)
{
    while (c->again && c->again->opened) mqsi_forget_opened(c, c->again->opened->number);
    free(c->again);
    free(c->address);
}
