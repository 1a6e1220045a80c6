/* blocking.c: the calls that block. A server that shares this machine's clock gets a call's moment along with it, and ends the call. Else
 * this side keeps it: when it comes, the client interrupts its own call. */
#include "again.h"

#include <errno.h>
#include <poll.h>
#include <string.h>
#include <sys/socket.h>
#include <sys/uio.h>
#include <unistd.h>

enum { PRIORITIES = 32768, LATE_S = 2 };

/* ---- Starting ---- */

static int gets_moment(const struct mqs *c, const struct timespec *until) { return until && c->shares_clock; }

static int start_once(struct mqs *c, struct request *r, enum request_op op, int is_timed)
{
    if (c->lost) return mqsi_fail(c->lost);
    if (c->started || c->away) return mqsi_fail(EBUSY);
    if (mqsi_write(c, r, mqsi_deadline(c)) < 0) return -1;
    c->started = op;
    c->is_timed = is_timed;
    return 0;
}

static int start(struct mqs *c, const struct request *r, enum request_op op, int is_timed)
{
    int result;
    do {
        struct request one = *r;
        result = mqsi_prepare(c, &one) < 0 ? -1 : start_once(c, &one, op, is_timed);
    } while (result < 0 && mqsi_goes_on(c, UNSAFE));
    return result;
}

int mqsi_start_send(struct mqs *c, uint64_t description, const void *data, size_t size, uint32_t priority, const struct timespec *until)
{
    int is_timed = gets_moment(c, until);
    struct request r = mqsi_by_description(is_timed ? MQ_TIMED_SEND : MQ_SEND, description);
    mqsi_put(&r, priority, 4);
    if (is_timed) mqsi_put(&r, mqsi_milliseconds(until), 8);
    r.data = data;
    r.size = size;
    return start(c, &r, MQ_SEND, is_timed);
}

int mqsi_start_receive(struct mqs *c, uint64_t description, size_t size, const struct timespec *until)
{
    int is_timed = gets_moment(c, until);
    struct request r = mqsi_by_description(is_timed ? MQ_TIMED_RECEIVE : MQ_RECEIVE, description);
    mqsi_put(&r, size > UINT32_MAX ? UINT32_MAX : size, 4);
    if (is_timed) mqsi_put(&r, mqsi_milliseconds(until), 8);
    if (start(c, &r, MQ_RECEIVE, is_timed) < 0) return -1;
    c->asked = size;
    return 0;
}

int mqsi_start_sem_wait(struct mqs *c, uint64_t description, const struct timespec *until)
{
    int is_timed = gets_moment(c, until);
    struct request r = mqsi_by_description(is_timed ? SEM_TIMED_WAIT : SEM_WAIT, description);
    if (is_timed) mqsi_put(&r, mqsi_milliseconds(until), 8);
    return start(c, &r, SEM_WAIT, is_timed);
}

int mqs_start_send(struct mqs *c, uint64_t description, const void *data, size_t size, uint32_t priority)
{
    mqsi_begin(c, NULL, 1);
    return mqsi_start_send(c, description, data, size, priority, NULL);
}

int mqs_start_receive(struct mqs *c, uint64_t description, size_t size)
{
    mqsi_begin(c, NULL, 1);
    return mqsi_start_receive(c, description, size, NULL);
}

int mqs_start_sem_wait(struct mqs *c, uint64_t description)
{
    mqsi_begin(c, NULL, 1);
    return mqsi_start_sem_wait(c, description, NULL);
}

/* ---- Waiting ---- */

/* Waits until bytes are there. Fails with EINTR or ETIMEDOUT. A recv goes on after a signal whose handler has SA_RESTART, as
 * the system's own calls do. */
static int await_bytes(struct mqs *c, clockid_t clock, const struct timespec *until)
{
    if (!until) {
        uint8_t byte;
        return recv(c->fd, &byte, 1, MSG_PEEK) < 0 && errno == EINTR ? -1 : 0;
    }
    for (;;) {
        struct timespec left = mqsi_time_left(clock, until);
        struct pollfd p = { c->fd, POLLIN, 0 };
        int n = ppoll(&p, 1, &left, NULL);
        if (n > 0) return 0;
        if (n < 0) return errno == EINTR ? -1 : mqsi_lose(c, ECONNRESET);
        if (left.tv_sec == 0 && left.tv_nsec == 0) return mqsi_fail(ETIMEDOUT);
    }
}

static int wait_until(struct mqs *c, clockid_t clock, const struct timespec *until)
{
    if (c->lost) return mqsi_fail(c->lost);
    if (!c->started || !mqsi_is_moment(until)) return mqsi_fail(EINVAL);
    for (int was_late = 0;;) {
        int there = mqsi_front(c);
        if (there) return there < 0 ? -1 : 0;
        /* What comes unasked doesn't put the end off: a moment that has passed allows one more look. */
        if (was_late) return mqsi_fail(ETIMEDOUT);
        if (until) {
            struct timespec left = mqsi_time_left(clock, until);
            was_late = left.tv_sec == 0 && left.tv_nsec == 0;
        }
        if (await_bytes(c, clock, until) < 0 || mqsi_fill(c) < 0) return -1;
    }
}

int mqs_wait(struct mqs *c, const struct timespec *until) { return (int)mqsi_in_parts(c, wait_until(c, CLOCK_REALTIME, until)); }

/* A server may be a little late. Where it is later than LATE_S its clock is another, or it stands still: this side ends the call, and keeps
 * the moments of later ones. LATE_S is by a clock that nobody sets: a server may take a second to see that the system's was set forward. */
int mqsi_wait_timed(struct mqs *c, const struct timespec *until)
{
    struct timespec last;
    if (wait_until(c, CLOCK_REALTIME, until) == 0) return 0;
    if (errno != ETIMEDOUT || !mqsi_is_timed(c)) return -1;
    clock_gettime(CLOCK_MONOTONIC, &last);
    last.tv_sec += LATE_S;
    if (wait_until(c, CLOCK_MONOTONIC, &last) == 0) return 0;
    if (errno == ETIMEDOUT) c->shares_clock = 0;
    return -1;
}

int mqs_wait_bound(struct mqs *c)
{
    if (!c->lost && !c->started) return mqsi_fail(EINVAL);
    return (int)mqsi_in_parts(c, mqsi_await_front(c, mqsi_deadline(c)));
}

/* ---- Ending ---- */

static int can_stop(const struct mqs *c) { return c->started && c->stale != STALE_SECOND; }

/* What the Interrupt was answered. */
static int take_stop(struct mqs *c, deadline end)
{
    struct answer a;
    c->rule = 0;
    if (mqsi_await_front(c, end) < 0) return -1;
    if (!c->is_stopped && c->in[c->from + 4] != INTERRUPTED) {
        c->stale = STALE_SECOND;
        return 0;
    }
    if (!c->is_stopped && mqsi_take(c, &a, INTERRUPTED) < 0) return -1;
    c->is_stopped = 1;
    if (mqsi_await_front(c, end) < 0) return -1;
    c->started = c->is_stopped = 0;
    return mqsi_take(c, &a, DONE) < 0 ? mqsi_lose(c, EPROTO) : 1;
}

static int stop(struct mqs *c)
{
    struct request r = mqsi_request(INTERRUPT);
    if (c->lost) return mqsi_fail(c->lost);
    if (!can_stop(c)) return mqsi_fail(EINVAL);
    deadline end = mqsi_deadline(c);
    return mqsi_write(c, &r, end) < 0 ? -1 : take_stop(c, end);
}

int mqs_stop(struct mqs *c) { return (int)mqsi_in_parts(c, stop(c)); }

/* It reads the socket's number alone, so that another thread may wait meanwhile. */
int mqs_ask_stop(struct mqs *c)
{
    static const uint8_t frame[] = { 0, 0, 0, 1, INTERRUPT };
    ssize_t n = send(c->fd, frame, sizeof frame, MSG_NOSIGNAL | MSG_DONTWAIT);
    if (n == (ssize_t)sizeof frame) return 0;
    if (n < 0 && (errno == EAGAIN || errno == EWOULDBLOCK)) return mqsi_fail(EAGAIN);
    shutdown(c->fd, SHUT_RDWR);
    return mqsi_fail(ECONNRESET);
}

int mqs_finish_stop(struct mqs *c)
{
    if (!c->lost && !can_stop(c)) return mqsi_fail(EINVAL);
    return (int)mqsi_in_parts(c, take_stop(c, mqsi_deadline(c)));
}

/* The answer in front as that of the call which was started. */
static int finish(struct mqs *c, struct answer *a, int is_receive, enum answer_op op)
{
    if (c->lost) return mqsi_fail(c->lost);
    if (!c->started || is_receive != (c->started == MQ_RECEIVE)) return mqsi_fail(EINVAL);
    c->rule = 0;
    int there = mqsi_front(c);
    if (there <= 0) return there < 0 ? -1 : mqsi_fail(EAGAIN);
    int r = mqsi_take(c, a, op);
    c->started = 0;
    return r;
}

static int finish_plain(struct mqs *c)
{
    struct answer a;
    return finish(c, &a, 0, c->started == MQ_SEND ? SENT : DONE);
}

int mqs_finish(struct mqs *c) { return (int)mqsi_in_parts(c, finish_plain(c)); }

/* The system says of a copy that it makes whether the buffer is the process's memory. Some containers forbid it that. */
static int copy_out(const struct mqs *c, void *data, const uint8_t *message, size_t size)
{
    struct iovec from = { (void *)(uintptr_t)message, size }, to = { data, size };
    if (c->is_checked) {
        ssize_t n = process_vm_writev(getpid(), &from, 1, &to, 1, 0);
        if (n == (ssize_t)size) return 0;
        if (n >= 0 || errno == EFAULT) return mqsi_fail(EFAULT);
    }
    memcpy(data, message, size);
    return 0;
}

static ssize_t finish_receive(struct mqs *c, void *data, size_t size, uint32_t *priority)
{
    struct answer a;
    if (finish(c, &a, 1, RECEIVED) < 0) return -1;
    uint64_t got = mqsi_get(a.fields, 4);
    size_t message = a.size - 4;
    if (got >= PRIORITIES || message > size) return mqsi_lose(c, EPROTO);
    if (priority) *priority = (uint32_t)got;
    int r = message > 0 ? copy_out(c, data, a.fields + 4, message) : 0;
    mqsi_give_back_room(c);
    return r < 0 ? -1 : (ssize_t)message;
}

ssize_t mqs_finish_receive(struct mqs *c, void *data, size_t size, uint32_t *priority)
{
    return mqsi_in_parts(c, finish_receive(c, data, size, priority));
}

/* ---- Whole calls ---- */

/* 0: the answer is there. -1: it isn't, and the call is over. */
static int wait_or_stop(struct mqs *c, const struct timespec *until)
{
    if (mqsi_wait_timed(c, until) == 0) return 0;
    if (c->lost) return -1;
    int why = errno, stopped = stop(c);
    if (stopped < 0 && why == EINTR) mqsi_end_tries(c, ECONNABORTED);
    return stopped == 1 ? mqsi_fail(why) : stopped;
}

static int begin(struct mqs *c, const struct timespec *until)
{
    c->rule = 0;
    mqsi_begin(c, until, 1);
    return mqsi_is_moment(until) ? 0 : mqsi_fail(EINVAL);
}

/* Whether the call is made once more: the server's clock is another, or it goes on after a loss. */
static int comes_again(struct mqs *c, const struct timespec *until, enum repeat repeat)
{
    return mqsi_was_early(c, until) || mqsi_goes_on(c, repeat);
}

int mqs_mq_send(struct mqs *c, uint64_t description, const void *data, size_t size, uint32_t priority,
                const struct timespec *until)
{
    int r;
    if (begin(c, until) < 0) return -1;
    do {
        r = mqsi_start_send(c, description, data, size, priority, until);
        if (r == 0) r = wait_or_stop(c, until);
        if (r == 0) r = finish_plain(c);
    } while (r < 0 && comes_again(c, until, UNSAFE));
    return r;
}

ssize_t mqs_mq_receive(struct mqs *c, uint64_t description, void *data, size_t size, uint32_t *priority,
                       const struct timespec *until)
{
    ssize_t r;
    if (begin(c, until) < 0) return -1;
    do {
        r = mqsi_start_receive(c, description, size, until);
        if (r == 0) r = wait_or_stop(c, until);
        if (r == 0) r = finish_receive(c, data, size, priority);
    } while (r < 0 && comes_again(c, until, COUNTED));
    return r;
}

int mqs_sem_wait(struct mqs *c, uint64_t description, const struct timespec *until)
{
    int r;
    if (begin(c, until) < 0) return -1;
    do {
        r = mqsi_start_sem_wait(c, description, until);
        if (r == 0) r = wait_or_stop(c, until);
        if (r == 0) r = finish_plain(c);
    } while (r < 0 && comes_again(c, until, UNSAFE));
    return r;
}
