/* connection.c: frames out and in over one connection. Every length that the server sends is checked before it is used. */
#include "again.h"
#include "away.h"

#include <errno.h>
#include <limits.h>
#include <poll.h>
#include <pthread.h>
#include <stdlib.h>
#include <string.h>
#include <sys/socket.h>
#include <sys/uio.h>

enum { FIRST_CAPACITY = 65536, KEPT_CAPACITY = 1048576, HEAD = 5 };

int mqsi_fail(int error)
{
    errno = error;
    return -1;
}

int mqsi_lose(struct mqs *c, int error)
{
    c->lost = error;
    return mqsi_fail(error);
}

/* ---- Time ---- */

deadline mqsi_now(void)
{
    struct timespec t;
    clock_gettime(CLOCK_MONOTONIC, &t);
    return t.tv_sec * INT64_C(1000000000) + t.tv_nsec;
}

deadline mqsi_deadline(const struct mqs *c)
{
    return c->bound_ms > 0 ? mqsi_now() + c->bound_ms * INT64_C(1000000) : INT64_MAX;
}

/* Waits until the socket is ready, whatever signals come. */
static int await(struct mqs *c, short events, deadline end)
{
    if (c->wait) return c->wait(c, events, end);
    for (;;) {
        int ms = -1;
        if (end != INT64_MAX) {
            int64_t left = end - mqsi_now();
            if (left <= 0) return mqsi_lose(c, ECONNABORTED);
            int64_t rounded = left / 1000000 + 1;
            ms = rounded > INT_MAX ? INT_MAX : (int)rounded;
        }
        struct pollfd p = { c->fd, events, 0 };
        int n = poll(&p, 1, ms);
        if (n > 0) return 0;
        if (n < 0 && errno != EINTR) return mqsi_lose(c, ECONNRESET);
    }
}

/* ---- Requests ---- */

void mqsi_put(struct request *r, uint64_t value, int bytes)
{
    while (bytes-- > 0) {
        uint8_t byte = (uint8_t)(value >> (8 * bytes));
        if (r->data) r->tail[r->tail_size++] = byte;
        else r->head[r->head_size++] = byte;
    }
}

uint64_t mqsi_get(const uint8_t *at, int bytes)
{
    uint64_t value = 0;
    while (bytes-- > 0) value = value << 8 | *at++;
    return value;
}

struct request mqsi_request(enum request_op op)
{
    struct request r = { .head_size = 4 };   /* room for the length */
    mqsi_put(&r, op, 1);
    return r;
}

struct request mqsi_by_description(enum request_op op, uint64_t description)
{
    struct request r = mqsi_request(op);
    r.has_target = 1;
    mqsi_put(&r, description, 8);
    return r;
}

int mqsi_put_text(struct request *r, const char *text)
{
    size_t size = strlen(text);
    if (size > LONGEST_TEXT) return mqsi_fail(ENAMETOOLONG);
    mqsi_put(r, size, 2);
    r->data = text;
    r->size = size;
    return 0;
}

/* Takes `sent` bytes off the front of the parts. */
static void advance(struct msghdr *message, size_t sent)
{
    while (message->msg_iovlen > 0 && sent >= message->msg_iov->iov_len) {
        sent -= message->msg_iov->iov_len;
        message->msg_iov++;
        message->msg_iovlen--;
    }
    if (message->msg_iovlen > 0) {
        message->msg_iov->iov_base = (uint8_t *)message->msg_iov->iov_base + sent;
        message->msg_iov->iov_len -= sent;
    }
}

int mqsi_write(struct mqs *c, struct request *r, deadline end)
{
    if (c->lost) return mqsi_fail(c->lost);
    c->op = r->head[4];
    if (c->op != INTERRUPT) c->is_out = 0;
    c->target = r->head_size >= HEAD + 8 ? mqsi_get(r->head + HEAD, 8) : 0;
    size_t around = r->head_size - 4 + r->tail_size;
    if (r->size > BODY_MAX - around) return mqsi_fail(EMSGSIZE);
    size_t body = around + r->size;
    for (int i = 0; i < 4; i++) r->head[i] = (uint8_t)(body >> (24 - 8 * i));
    struct iovec parts[3] = { { r->head, r->head_size }, { (void *)(uintptr_t)r->data, r->size }, { r->tail, r->tail_size } };
    struct msghdr message = { .msg_iov = parts, .msg_iovlen = 3 };
    int has_begun = 0;
    while (message.msg_iovlen > 0) {
        ssize_t n = sendmsg(c->fd, &message, MSG_NOSIGNAL | MSG_DONTWAIT);
        has_begun |= n > 0;
        if (n >= 0) advance(&message, (size_t)n);
        else if (errno == EFAULT && !has_begun) return -1;   /* nothing went out: the connection is as it was */
        else if (errno == EAGAIN || errno == EWOULDBLOCK) {
            if (await(c, POLLOUT, end) < 0) return -1;
        } else if (errno != EINTR) return mqsi_lose(c, ECONNRESET);
    }
    c->is_out = 1;
    return 0;
}

/* ---- Answers ---- */

/* How many bytes the fields of an answer may have. */
static const struct { uint32_t least, most; } sizes[] = {
    [STARTED - STARTED] = { 8, 8 },
    [DONE - STARTED] = { 0, 0 },
    [OPENED - STARTED] = { 8, 8 },
    [MASK - STARTED] = { 2, 2 },
    [ATTRS - STARTED] = { 13, 13 },
    [SENT - STARTED] = { 0, 0 },
    [RECEIVED - STARTED] = { 4, 4 + MESSAGE_MAX },
    [VALUE - STARTED] = { 4, 4 },
    [NAMES - STARTED] = { 2, 2 + PAGE * (2 + NAME_MAX_ALL) },
    [STAT - STARTED] = { 10, 10 },
    [RECORDS - STARTED] = { 2, 2 + PAGE * (21 + NAME_MAX_ALL) },
    [REFUSED - STARTED] = { 2, 2 },
    [INTERRUPTED - STARTED] = { 0, 0 },
    [NOTICE - STARTED] = { 8, 8 },
    [TAKEN - STARTED] = { 8, 8 },
};

static int is_possible(const struct mqs *c, int op, size_t size)
{
    if (op < STARTED || op > TAKEN) return 0;
    if (size < sizes[op - STARTED].least || size > sizes[op - STARTED].most) return 0;
    return op != RECEIVED || (c->started == MQ_RECEIVE && size - 4 <= c->asked) || mqsi_is_for_away(c, size - 4);
}

static size_t have(const struct mqs *c) { return c->to - c->from; }
static const uint8_t *head(const struct mqs *c) { return c->in + c->from; }

/* The bytes of the frame in front: those that are missing to know it count as HEAD. 0 if no such frame may come. */
static size_t frame_size(const struct mqs *c)
{
    if (have(c) < 4) return HEAD;
    uint64_t body = mqsi_get(head(c), 4);
    if (body == 0 || body > BODY_MAX) return 0;
    if (have(c) < HEAD) return HEAD;
    return is_possible(c, head(c)[4], (size_t)body - 1) ? (size_t)body + 4 : 0;
}

size_t mqsi_front_size(const struct mqs *c) { return frame_size(c); }

void mqsi_keep_unasked(struct mqs *c, int what, uint64_t description)
{
    if (c->count == UNASKED) {
        c->first = (c->first + 1) % UNASKED;
        c->count--;
    }
    size_t at = (c->first + c->count++) % UNASKED;
    c->unasked[at].what = what;
    c->unasked[at].description = description;
}

/* Looks at what has come, and puts aside what is no answer to the call. 1: an answer stands whole in front. 0: not yet. -1. */
int mqsi_front(struct mqs *c)
{
    if (c->lost) return mqsi_fail(c->lost);
    for (;;) {
        size_t size = frame_size(c);
        if (size == 0) return mqsi_lose(c, EPROTO);
        if (have(c) < size) return 0;
        int op = head(c)[4];
        if (op == NOTICE || op == TAKEN) {
            mqsi_keep_unasked(c, op, mqsi_number_of(c, op, mqsi_get(head(c) + HEAD, 8)));
        } else if (c->stale == STALE_NEXT) {
            if (op != REFUSED || mqsi_get(head(c) + HEAD, 2) != NOT_IN_CALL) return mqsi_lose(c, EPROTO);
            c->stale = STALE_NONE;
        } else {
            return 1;
        }
        c->from += size;
    }
}

static void move_to_front(struct mqs *c)
{
    size_t there = have(c);
    if (c->from > 0) memmove(c->in, head(c), there);
    c->from = 0;
    c->to = there;
}

static int resize(struct mqs *c, size_t capacity)
{
    uint8_t *in = realloc(c->in, capacity);
    if (!in) return -1;
    c->in = in;
    c->capacity = capacity;
    return 0;
}

/* Gives the buffer room for the frame in front, as its bytes come: never more than twice what is there. */
static int make_room(struct mqs *c)
{
    size_t want = frame_size(c), capacity = c->capacity;
    move_to_front(c);
    if (c->to == capacity) capacity = 2 * capacity < want ? 2 * capacity : want;
    if (capacity == 0) capacity = FIRST_CAPACITY;
    return capacity == c->capacity || resize(c, capacity) == 0 ? 0 : mqsi_lose(c, ENOMEM);
}

/* Has a frame that was taken before stand in front again. */
int mqsi_put_in_front(struct mqs *c, const uint8_t *frame, size_t size)
{
    move_to_front(c);
    if (c->capacity - c->to < size && resize(c, c->to + size) < 0) return mqsi_lose(c, ENOMEM);
    if (c->to > 0) memmove(c->in + size, c->in, c->to);
    memcpy(c->in, frame, size);
    c->to += size;
    return 0;
}

/* Gives back the room of a big message that was taken. The next call doesn't, since that may be made by the handler of a signal. */
void mqsi_give_back_room(struct mqs *c)
{
    if (c->capacity <= KEPT_CAPACITY || have(c) > FIRST_CAPACITY) return;
    move_to_front(c);
    resize(c, FIRST_CAPACITY);
}

/* No cancellation ends a recv that has taken bytes: in the GNU C library before 2.41 they would be gone (its bug 12683). The waits before it
 * can be cancelled. */
static ssize_t take_bytes(struct mqs *c)
{
    int state;
    pthread_setcancelstate(PTHREAD_CANCEL_DISABLE, &state);
    ssize_t n = recv(c->fd, c->in + c->to, c->capacity - c->to, MSG_DONTWAIT);
    pthread_setcancelstate(state, &state);
    return n;
}

/* Reads what is there. 1: bytes came. 0: none are there. -1. Call it only where mqsi_front gave 0. */
int mqsi_fill(struct mqs *c)
{
    if (make_room(c) < 0) return -1;
    for (;;) {
        ssize_t n = take_bytes(c);
        if (n > 0) {
            c->to += (size_t)n;
            return 1;
        }
        if (n < 0 && errno == EINTR) continue;
        if (n < 0 && (errno == EAGAIN || errno == EWOULDBLOCK)) return 0;
        return mqsi_lose(c, ECONNRESET);
    }
}

/* Waits until an answer stands whole in front. What comes unasked doesn't move the deadline. */
int mqsi_await_front(struct mqs *c, deadline end)
{
    int there;
    while ((there = mqsi_front(c)) == 0)
        if (await(c, POLLIN, end) < 0 || mqsi_fill(c) < 0) return -1;
    return there < 0 ? -1 : 0;
}

/* Takes the answer in front, which must have this opcode. A refusal sets the rule. */
int mqsi_take(struct mqs *c, struct answer *a, enum answer_op op)
{
    *a = (struct answer){ head(c)[4], head(c) + HEAD, frame_size(c) - HEAD };
    c->from += HEAD + a->size;
    if (c->stale == STALE_SECOND) c->stale = STALE_NEXT;
    if (a->op == REFUSED) {
        uint64_t rule = mqsi_get(a->fields, 2);
        if (rule == 0 || rule > LAST_RULE) return mqsi_lose(c, EPROTO);
        c->rule = (int)rule;
        return mqsi_fail(mqs_errno(c->rule));
    }
    return a->op == (int)op ? 0 : mqsi_lose(c, EPROTO);
}

int mqsi_ask_once(struct mqs *c, struct request *r, struct answer *a, enum answer_op op)
{
    c->rule = 0;
    if (c->lost) return mqsi_fail(c->lost);
    if (c->started || c->away) return mqsi_fail(EBUSY);
    deadline end = mqsi_deadline(c);
    if (mqsi_write(c, r, end) < 0 || mqsi_await_front(c, end) < 0) return -1;
    return mqsi_take(c, a, op);
}

int mqsi_ask_done(struct mqs *c, const struct request *r)
{
    struct answer a;
    return mqsi_ask(c, r, &a, DONE);
}

int mqsi_kept(const struct mqs *c) { return (int)c->count; }

int mqsi_look(struct mqs *c)
{
    if (!c->lost) mqsi_front(c);
    return mqsi_kept(c);
}

int mqs_next_unasked(struct mqs *c, int *what, uint64_t *description)
{
    if (c->count == 0 && !c->lost) {
        int there = mqsi_front(c);
        if (c->count == 0 && there == 0 && mqsi_fill(c) == 1) mqsi_front(c);
    }
    if (c->count == 0 && c->lost && mqsi_renew(c) < 0) return -1;
    if (c->count == 0) return 0;
    *what = c->unasked[c->first].what;
    *description = c->unasked[c->first].description;
    c->first = (c->first + 1) % UNASKED;
    c->count--;
    return 1;
}
