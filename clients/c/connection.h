/* connection.h: what the parts of the library share: a connection, requests and answers. */
#ifndef CONNECTION_H
#define CONNECTION_H

#include "timed.h"

#include <sys/socket.h>

enum {
    BODY_MAX = 16777300,        /* of a frame: its opcode and its fields */
    MESSAGE_MAX = 16777216,     /* of a message that a server sends */
    UNASKED = 1024,
    LONGEST_TEXT = 65535,
    PAGE = 1000,
    NAME_MAX_ALL = 256,         /* of a name in a page */
};

enum request_op {
    HELLO = 1, UMASK, MQ_OPEN, MQ_CLOSE, MQ_UNLINK, MQ_SEND, MQ_RECEIVE, MQ_GETATTR, MQ_SETATTR, MQ_NOTIFY, SEM_OPEN, SEM_CLOSE,
    SEM_UNLINK, SEM_POST, SEM_WAIT, SEM_TRYWAIT, SEM_GETVALUE, LIST_NAMES, STAT_NAME, CHMOD, CHOWN, SET_LIMIT, INTERRUPT, AUDIT,
    MQ_TIMED_SEND = 26, MQ_TIMED_RECEIVE, SEM_TIMED_WAIT, MQ_GIVE = 30,
};

enum answer_op {
    STARTED = 65, DONE, OPENED, MASK, ATTRS, SENT, RECEIVED, VALUE, NAMES, STAT, RECORDS, REFUSED, INTERRUPTED, NOTICE, TAKEN,
};

enum { NOT_IN_CALL = 3, BAD_KEY = 31, TIMED_OUT = 32, LAST_RULE = 33 };

/* The refusal of an Interrupt that came too late stands behind the answer of the call. */
enum stale { STALE_NONE, STALE_NEXT, STALE_SECOND };

struct away;
struct again;

/* A moment of CLOCK_MONOTONIC in nanoseconds; INT64_MAX is none. */
typedef int64_t deadline;

struct mqs {
    int fd, lost, rule, bound_ms;   /* fd: -1 where the program closed the socket */
    enum stale stale;
    int is_stopped;             /* an Interrupt was answered, and the answer to the call is to come */
    int (*wait)(struct mqs *c, short events, deadline end);   /* in place of the library's own wait, or NULL */
    struct away *away;          /* a call whose thread doesn't wait just now: its answer comes before all others */
    int is_checked;             /* a message is copied so that a bad buffer is EFAULT */
    int op;                     /* the opcode of the newest request, and its description if it has one */
    uint64_t target;
    int is_out;                 /* it left as a whole: the server may do it */
    uint64_t session;
    int mask;                   /* that the program has set, or -1 */
    char *address, *key;        /* of mqs_connect, else NULL; the key may be NULL too */
    struct again *again;        /* NULL: a loss is final */
    int shares_clock;           /* the server's clock is this machine's: it ends calls at their moments */
    int started;                /* the opcode without a moment of the call that was started and isn't finished, or 0 */
    int is_timed;               /* the server has that call's moment */
    size_t asked;               /* the bytes that a started receive has room for */
    uint8_t *in;                /* what has come: in[from .. to] */
    size_t capacity, from, to;
    struct { int what; uint64_t description; } unasked[UNASKED];   /* a ring */
    size_t first, count;
};

/* An answer's opcode and fields, which stand in the connection's buffer until the next read. */
struct answer { int op; const uint8_t *fields; size_t size; };

/* A request: numbers, bytes that the caller keeps, and numbers behind them. */
struct request { uint8_t head[40], tail[40]; size_t head_size, tail_size, size; const void *data; int has_target; };

int mqsi_fail(int error);
int mqsi_lose(struct mqs *c, int error);
deadline mqsi_now(void);
deadline mqsi_deadline(const struct mqs *c);

struct request mqsi_request(enum request_op op);
struct request mqsi_by_description(enum request_op op, uint64_t description);
void mqsi_put(struct request *r, uint64_t value, int bytes);
int mqsi_put_text(struct request *r, const char *text);
uint64_t mqsi_get(const uint8_t *at, int bytes);

int mqsi_is_here(const struct sockaddr *peer);
int mqsi_is_moment(const struct timespec *until);
struct timespec mqsi_time_left(clockid_t clock, const struct timespec *until);
uint64_t mqsi_milliseconds(const struct timespec *until);

int mqsi_write(struct mqs *c, struct request *r, deadline end);
int mqsi_front(struct mqs *c);
size_t mqsi_front_size(const struct mqs *c);
int mqsi_put_in_front(struct mqs *c, const uint8_t *frame, size_t size);
int mqsi_fill(struct mqs *c);
int mqsi_await_front(struct mqs *c, deadline end);
void mqsi_give_back_room(struct mqs *c);
int mqsi_take(struct mqs *c, struct answer *a, enum answer_op op);
void mqsi_keep_unasked(struct mqs *c, int what, uint64_t description);
int mqsi_ask_once(struct mqs *c, struct request *r, struct answer *a, enum answer_op op);
int mqsi_ask(struct mqs *c, const struct request *r, struct answer *a, enum answer_op op);
int mqsi_ask_done(struct mqs *c, const struct request *r);

#endif
