/* hostile.c: the library against servers that lie, stop at any byte, or say nothing. Each call must end as its case says, within its
 * bound. The server is the other end of a pair of sockets, whose bytes are there before the call, or come as the case says. */
#include "pair.h"

#include <poll.h>
#include <pwd.h>
#include <sys/un.h>

/* ---- One answer to one call ---- */

enum kind { OPEN, CLOSE, ATTRIBUTES, VALUE_OF, STAT_OF, MASKS, LIST, TRAIL, SEND, RECEIVE, WAIT, KINDS };

static int each_name(const char *name, size_t size, void *arg)
{
    for (size_t i = 0; i < size; i++) *(int *)arg += name[i];
    return 0;
}

static int each_record(const struct mqs_record *record, void *arg) { return each_name(record->name, record->name_size, arg); }

static long call(struct mqs *c, enum kind kind)
{
    uint64_t description;
    uint32_t number;
    struct mqs_state state;
    struct mqs_facts facts;
    char data[8];
    int sum = 0;
    struct timespec until = in_ms(100);
    switch (kind) {
    case OPEN: return mqs_mq_open(c, "/q", MQS_BOTH, 0, 0, NULL, &description);
    case CLOSE: return mqs_mq_close(c, 1);
    case ATTRIBUTES: return mqs_mq_getattr(c, 1, &state);
    case VALUE_OF: return mqs_sem_getvalue(c, 1, &number);
    case STAT_OF: return mqs_stat(c, MQS_QUEUES, "/q", &facts);
    case MASKS: return mqs_umask(c, 0);
    case LIST: return mqs_list(c, MQS_QUEUES, 0, each_name, &sum);
    case TRAIL: return mqs_audit(c, 0, each_record, &sum);
    case SEND: return mqs_mq_send(c, 1, "x", 1, 0, &until);
    case RECEIVE: return mqs_mq_receive(c, 1, data, sizeof data, NULL, &until);
    default: return mqs_sem_wait(c, 1, &until);
    }
}

/* The frame that each call is glad of. */
static const struct { uint8_t bytes[64]; size_t size; } honest[KINDS] = {
    [OPEN] = { { 0, 0, 0, 9, OPENED, 0, 0, 0, 0, 0, 0, 0, 1 }, 13 },
    [CLOSE] = { { 0, 0, 0, 1, DONE }, 5 },
    [ATTRIBUTES] = { { 0, 0, 0, 14, ATTRS, 0, 0, 0, 0, 10, 0, 0, 0, 16, 0, 0, 0, 2 }, 18 },
    [VALUE_OF] = { { 0, 0, 0, 5, VALUE, 0, 0, 0, 7 }, 9 },
    [STAT_OF] = { { 0, 0, 0, 11, STAT, 0, 0, 3, 232, 0, 0, 3, 232, 1, 128 }, 15 },
    [MASKS] = { { 0, 0, 0, 3, MASK, 0, 18 }, 7 },
    [LIST] = { { 0, 0, 0, 11, NAMES, 0, 2, 0, 2, '/', 'a', 0, 2, '/', 'b' }, 15 },
    [TRAIL] = { { 0, 0, 0, 26, RECORDS, 0, 1, 0, 0, 0, 0, 0, 0, 0, 1, 0, 0, 0, 0, 0, 0, 0, 2, 3, 0, 13, 0, 2, '/', 'a' }, 30 },
    [SEND] = { { 0, 0, 0, 1, SENT }, 5 },
    [RECEIVE] = { { 0, 0, 0, 8, RECEIVED, 0, 0, 0, 7, 'a', 'b', 'c' }, 12 },
    [WAIT] = { { 0, 0, 0, 1, DONE }, 5 },
};

static void honest_answers(void)
{
    for (enum kind k = OPEN; k < KINDS; k++) {
        struct mqs *c = fresh();
        put(honest[k].bytes, honest[k].size);
        CHECK(call(c, k) >= 0 && mqs_lost(c) == 0);
        end(c);
    }
}

/* The stream ends, or says nothing more, behind each byte of the answer. */
static void cut_at_each_byte(int closes)
{
    for (enum kind k = OPEN; k < KINDS; k++)
        for (size_t size = 0; size < honest[k].size; size++) {
            if (!closes && size % 5 != 0) continue;   /* silence takes its bound each time, and two seconds where the call has a moment */
            struct mqs *c = fresh();
            put(honest[k].bytes, size);
            if (closes) shutdown(server, SHUT_WR);
            double start = seconds();
            CHECK(call(c, k) == -1 && mqs_rule(c) == 0);
            CHECK(errno == (closes ? ECONNRESET : ECONNABORTED) && mqs_lost(c) == errno);
            CHECK(seconds() - start < BOUND_MS / 1e3 + LATE_S);
            CHECK(call(c, k) == -1 && errno == mqs_lost(c));
            end(c);
        }
}

/* An answer that is another call's. */
static void wrong_answers(void)
{
    for (enum kind asked = OPEN; asked < KINDS; asked++)
        for (enum kind came = OPEN; came < KINDS; came++) {
            if (honest[asked].bytes[4] == honest[came].bytes[4]) continue;
            struct mqs *c = fresh();
            put(honest[came].bytes, honest[came].size);
            CHECK(call(c, asked) == -1 && errno == EPROTO && mqs_lost(c) == EPROTO);
            end(c);
        }
}

static void one_wrong(enum kind kind, const uint8_t *bytes, size_t size)
{
    struct mqs *c = fresh();
    put(bytes, size);
    CHECK(call(c, kind) == -1 && errno == EPROTO && mqs_lost(c) == EPROTO);
    end(c);
}
#define WRONG(kind, ...) do { uint8_t bytes[] = { __VA_ARGS__ }; one_wrong(kind, bytes, sizeof bytes); } while (0)

/* Lengths and values that no answer has. Most of these frames never come whole: their heads are enough. */
static void lies(void)
{
    WRONG(CLOSE, 0, 0, 0, 0);
    WRONG(CLOSE, 1, 0, 0, 0x55, DONE);
    WRONG(CLOSE, 0xff, 0xff, 0xff, 0xff);
    WRONG(CLOSE, 0, 0, 0, 2, DONE, 0);
    WRONG(CLOSE, 0, 0, 0, 1, 0);
    WRONG(CLOSE, 0, 0, 0, 1, 255);
    WRONG(CLOSE, 0, 0, 0, 1, SENT);
    WRONG(CLOSE, 0, 0, 0, 1, INTERRUPTED);
    WRONG(CLOSE, 0, 0, 0, 3, REFUSED, 0, 0);
    WRONG(CLOSE, 0, 0, 0, 3, REFUSED, 0, 34);
    WRONG(CLOSE, 0, 0, 0, 3, REFUSED, 255, 255);
    WRONG(CLOSE, 0, 0, 0, 9, STARTED, 0, 0, 0, 0, 0, 0, 0, 5);
    WRONG(CLOSE, 0, 0, 0, 10, NOTICE);
    WRONG(CLOSE, 0, 0, 0, 8, TAKEN);
    WRONG(OPEN, 0, 0, 0, 8, OPENED);
    WRONG(ATTRIBUTES, 0, 0, 0, 14, ATTRS, 2, 0, 0, 0, 10, 0, 0, 0, 16, 0, 0, 0, 2);
    WRONG(VALUE_OF, 0, 0, 0, 5, VALUE, 0x80, 0, 0, 0);
    WRONG(MASKS, 0, 0, 0, 3, MASK, 2, 0);
    WRONG(LIST, 0, 0, 0, 2, NAMES);
    WRONG(LIST, 0, 0, 0, 3, NAMES, 0, 1);
    WRONG(LIST, 0, 0, 0, 3, NAMES, 255, 255);
    WRONG(LIST, 0, 0, 0, 7, NAMES, 0, 1, 0, 9, '/', 'a');
    WRONG(LIST, 0, 0, 0, 8, NAMES, 0, 1, 0, 2, '/', 'a', 'b');
    WRONG(LIST, 0, 0, 0, 7, NAMES, 0, 2, 0, 2, '/', 'a');
    WRONG(LIST, 0, 4, 0, 0, NAMES);
    WRONG(TRAIL, 0, 0, 0, 7, RECORDS, 0, 1, 0, 0, 0, 0);
    WRONG(TRAIL, 0, 0, 0, 26, RECORDS, 0, 1, 0, 0, 0, 0, 0, 0, 0, 1, 0, 0, 0, 0, 0, 0, 0, 2, 3, 0, 13, 1, 2, '/', 'a');
    WRONG(SEND, 0, 0, 0, 1, DONE);
    WRONG(RECEIVE, 0, 0, 0, 4, RECEIVED);
    WRONG(RECEIVE, 0, 0, 0, 14, RECEIVED, 0, 0, 0, 1, '1', '2', '3', '4', '5', '6', '7', '8', '9');
    WRONG(RECEIVE, 1, 0, 0, 5, RECEIVED);
    WRONG(RECEIVE, 0, 0, 0, 5, RECEIVED, 0, 0, 128, 0);
    WRONG(WAIT, 0, 0, 0, 1, INTERRUPTED);
}

/* ---- A server that goes on ---- */

struct flood { const void *bytes; size_t size; int pause_us; };
static volatile int flood_ends;

static void *flood_on(void *arg)
{
    const struct flood *f = arg;
    while (!flood_ends && send(server, f->bytes, f->size, MSG_NOSIGNAL | MSG_DONTWAIT) != -2) usleep((useconds_t)f->pause_us);
    return NULL;
}

/* Things that come unasked without end, in place of the answer; and one byte of it at a time. */
static void endless(enum kind kind, const void *bytes, size_t size, int pause_us)
{
    struct flood f = { bytes, size, pause_us };
    pthread_t thread;
    struct mqs *c = fresh();
    flood_ends = 0;
    pthread_create(&thread, NULL, flood_on, &f);
    double start = seconds();
    CHECK(call(c, kind) == -1 && errno == ECONNABORTED);
    CHECK(seconds() - start < BOUND_MS / 1e3 + LATE_S);
    flood_ends = 1;
    pthread_join(thread, NULL);
    end(c);
}

static void floods(void)
{
    static const uint8_t notice[] = { 0, 0, 0, 9, NOTICE, 0, 0, 0, 0, 0, 0, 0, 7 };
    endless(CLOSE, notice, sizeof notice, 1);
    endless(RECEIVE, notice, sizeof notice, 1);
    endless(CLOSE, notice, 13, 30000);
    struct mqs *c = fresh();
    int what;
    uint64_t description;
    int count = 0;
    static uint8_t many[3000 * sizeof notice];
    for (size_t i = 0; i < sizeof many; i++) many[i] = notice[i % sizeof notice];
    put(many, sizeof many);
    put(honest[CLOSE].bytes, honest[CLOSE].size);
    CHECK(call(c, CLOSE) == 0);
    while (mqs_next_unasked(c, &what, &description) == 1) count += what == MQS_NOTICE && description == 7;
    CHECK(count == UNASKED);
    end(c);
}

/* A server that reads nothing: a request that doesn't fit into the socket ends within the bound. */
static void unread(void)
{
    static char big[4000000];
    struct mqs *c = fresh();
    double start = seconds();
    CHECK(mqs_mq_send(c, 1, big, sizeof big, 0, NULL) == -1 && errno == ECONNABORTED);
    CHECK(seconds() - start < LATE_S);
    CHECK(mqs_mq_send(c, 1, big, sizeof big, 0, NULL) == -1 && errno == ECONNABORTED);
    end(c);
    c = fresh();
    CHECK(mqs_mq_send(c, 1, big, 16777288, 0, NULL) == -1 && errno == EMSGSIZE && mqs_lost(c) == 0);
    end(c);
}

/* A socket that takes nothing just now: an Interrupt is refused whole, and may be sent later. */
static void full_socket(void)
{
    char junk[4096] = { 0 };
    struct mqs *c = fresh();
    while (send(mqs_fd(c), junk, sizeof junk, MSG_DONTWAIT) > 0);
    CHECK(mqs_ask_stop(c) == -1 && errno == EAGAIN && mqs_lost(c) == 0);
    while (recv(server, junk, sizeof junk, MSG_DONTWAIT) > 0);
    CHECK(mqs_ask_stop(c) == 0);
    end(c);
}

/* A socket with O_NONBLOCK: a call that waits without an end sleeps on it all the same. */
static void socket_that_does_not_block(void)
{
    struct later l = { honest[RECEIVE].bytes, honest[RECEIVE].size, 500 };
    int ends[2];
    char data[8];
    pthread_t thread;
    if (socketpair(AF_UNIX, SOCK_STREAM | SOCK_NONBLOCK, 0, ends) < 0) abort();
    server = ends[1];
    put(started, sizeof started);
    struct mqs *c = mqs_attach(ends[0], "key", LONG_MS);
    if (!c) abort();
    pthread_create(&thread, NULL, answer_later, &l);
    clock_t before = clock();
    CHECK(mqs_mq_receive(c, 1, data, sizeof data, NULL, NULL) == 3);
    CHECK(clock() - before < CLOCKS_PER_SEC / 10);
    pthread_join(thread, NULL);
    end(c);
}

struct piece { const uint8_t *bytes; size_t size; };

static void *write_all(void *arg)
{
    const struct piece *p = arg;
    for (size_t at = 0; at < p->size;) {
        ssize_t n = write(server, p->bytes + at, p->size - at);
        if (n <= 0) abort();
        at += (size_t)n;
    }
    return NULL;
}

/* The room of a big message goes with the call that took it. The next call changes nothing of the heap: it may be that of a signal's handler. */
static void room_of_a_big_message(void)
{
    enum { BIG = 3000000 };
    static uint8_t frame[9 + BIG], data[BIG];
    uint32_t body = 5 + BIG;
    for (int i = 0; i < 4; i++) frame[i] = (uint8_t)(body >> (24 - 8 * i));
    frame[4] = RECEIVED;
    struct piece piece = { frame, sizeof frame };
    pthread_t thread;
    struct mqs *c = fresh();
    mqs_set_bound(c, LONG_MS);
    pthread_create(&thread, NULL, write_all, &piece);
    CHECK(mqs_mq_receive(c, 1, data, sizeof data, NULL, NULL) == BIG);
    pthread_join(thread, NULL);
    const uint8_t *in = c->in;
    size_t capacity = c->capacity;
    CHECK(capacity < BIG);
    put(honest[CLOSE].bytes, honest[CLOSE].size);
    CHECK(call(c, CLOSE) == 0 && c->in == in && c->capacity == capacity);
    end(c);
}

/* ---- Interrupts ---- */

static const uint8_t interrupted[] = { 0, 0, 0, 1, INTERRUPTED, 0, 0, 0, 1, DONE }, refused_3[] = { 0, 0, 0, 3, REFUSED, 0, 3 };

/* A call whose moment this side keeps: by the time of the answer it has sent an Interrupt. */
static long late_call(const void *bytes, size_t size, int bound_ms, int *error)
{
    struct later l = { bytes, size, 300 };
    pthread_t thread;
    struct mqs *c = fresh();
    mqs_set_bound(c, bound_ms);
    mqs_set_shared_clock(c, 0);
    pthread_create(&thread, NULL, answer_later, &l);
    long r = call(c, RECEIVE);
    *error = errno;
    pthread_join(thread, NULL);
    end(c);
    return r;
}

static void interrupts(void)
{
    int error;
    uint8_t both[64];
    CHECK(late_call(interrupted, sizeof interrupted, LONG_MS, &error) == -1 && error == ETIMEDOUT);
    CHECK(late_call(honest[RECEIVE].bytes, honest[RECEIVE].size, LONG_MS, &error) == 3);
    CHECK(late_call(interrupted, 5, 1000, &error) == -1 && error == ECONNABORTED);
    CHECK(late_call(refused_3, sizeof refused_3, LONG_MS, &error) == -1 && error == EINVAL);
    memcpy(both, interrupted, 5);
    memcpy(both + 5, honest[OPEN].bytes, honest[OPEN].size);
    CHECK(late_call(both, 5 + honest[OPEN].size, LONG_MS, &error) == -1 && error == EPROTO);
    memcpy(both + 5, refused_3, sizeof refused_3);
    CHECK(late_call(both, 5 + sizeof refused_3, LONG_MS, &error) == -1 && error == EPROTO);

    /* The answer came first, and another frame than the refusal of the interrupt stands behind it. */
    struct mqs *c = fresh();
    struct timespec past = { 0, 0 };
    char data[8];
    CHECK(mqs_start_receive(c, 1, sizeof data) == 0 && mqs_wait(c, &past) == -1 && errno == ETIMEDOUT);
    put(honest[RECEIVE].bytes, honest[RECEIVE].size);
    put(honest[CLOSE].bytes, honest[CLOSE].size);
    CHECK(mqs_stop(c) == 0 && mqs_finish_receive(c, data, sizeof data, NULL) == 3);
    CHECK(call(c, CLOSE) == -1 && errno == EPROTO);
    end(c);
}

static void hellos(void)
{
    static const struct { uint8_t bytes[16]; size_t size; int error; } answers[] = {
        { { 0 }, 0, ETIMEDOUT }, { { 0, 0, 0, 3, REFUSED, 0, 31 }, 7, EACCES }, { { 'S', 'S', 'H', '-', '2', '.', '0' }, 7, EPROTO },
        { { 'H', 'T', 'T', 'P', '/', '1' }, 6, EPROTO }, { { 0, 0, 0, 1, DONE }, 5, EPROTO },
    };
    for (size_t i = 0; i < sizeof answers / sizeof *answers; i++) {
        int ends[2];
        if (socketpair(AF_UNIX, SOCK_STREAM, 0, ends) < 0) abort();
        server = ends[1];
        put(answers[i].bytes, answers[i].size);
        CHECK(!mqs_attach(ends[0], "key", BOUND_MS) && errno == answers[i].error);
        close(server);
    }
}

/* ---- Paths ---- */

static int refuses(const char *address, int error)
{
    errno = 0;
    return !mqs_connect(address, "key", BOUND_MS) && errno == error;
}

/* Fills the listener's queue, so that a further connect waits. */
static int full_listener(const struct sockaddr_un *at, int waiting[4])
{
    int listener = socket(AF_UNIX, SOCK_STREAM, 0);
    if (bind(listener, (const struct sockaddr *)at, sizeof *at) < 0 || listen(listener, 1) < 0) abort();
    for (int i = 0; i < 4; i++) {
        waiting[i] = socket(AF_UNIX, SOCK_STREAM | SOCK_NONBLOCK, 0);
        connect(waiting[i], (const struct sockaddr *)at, sizeof *at);
    }
    return listener;
}

/* A socket on which nobody accepts: connections wait there until there are too many. */
static void crowd(const char *address, const struct sockaddr_un *at)
{
    int unheard = socket(AF_UNIX, SOCK_STREAM, 0), waiting[4];
    double start = seconds();
    CHECK(bind(unheard, (const struct sockaddr *)at, sizeof *at) == 0 && refuses(address, ECONNREFUSED));
    close(unheard);
    unlink(at->sun_path);
    int listener = full_listener(at, waiting);
    CHECK(refuses(address, ETIMEDOUT) && seconds() - start < BOUND_MS / 1e3 + LATE_S);
    for (int i = 0; i < 4; i++) close(waiting[i]);
    close(listener);
    CHECK(refuses(address, ECONNREFUSED));
    unlink(at->sun_path);
}

enum { CONNECT_MS = 1000, ACCEPTED_MS = 800, STARTED_MS = 900 };   /* the last after the one before */

static void *serve_late(void *arg)
{
    int ends[4], count = 0;
    struct pollfd p = { *(int *)arg, POLLIN, 0 };
    usleep(ACCEPTED_MS * 1000);
    while (count < 4 && poll(&p, 1, 100) > 0) ends[count++] = accept(p.fd, NULL, NULL);
    usleep((STARTED_MS - 100) * 1000);
    for (int i = 0; i < count; i++) {
        send(ends[i], started, sizeof started, MSG_NOSIGNAL);
        close(ends[i]);
    }
    return NULL;
}

/* Connecting takes the most of the bound, and the answer to the hello too: the bound is that of both. */
static void slow_twice(const char *address, const struct sockaddr_un *at)
{
    int waiting[4], listener = full_listener(at, waiting);
    pthread_t thread;
    pthread_create(&thread, NULL, serve_late, &listener);
    struct mqs *c = mqs_connect(address, "key", CONNECT_MS);
    CHECK(!c && errno == ETIMEDOUT);
    mqs_disconnect(c);
    pthread_join(thread, NULL);
    for (int i = 0; i < 4; i++) close(waiting[i]);
    close(listener);
    unlink(at->sun_path);
}

/* The user's entry, which isn't there, as the C library tells it in several ways. */
static int passwd_error;

int getpwuid_r(uid_t user, struct passwd *entry, char *text, size_t size, struct passwd **found)
{
    (void)user, (void)entry, (void)text, (void)size;
    *found = NULL;
    return passwd_error;
}

static void no_entry(void)
{
    CHECK(refuses("unix-user:/tmp", ENXIO));
    passwd_error = ENOENT;
    CHECK(refuses("unix-user:/tmp", ENXIO));
    passwd_error = ESRCH;
    CHECK(refuses("unix-user:/tmp", ENXIO));
    passwd_error = EIO;
    CHECK(refuses("unix-user:/tmp", EIO));
}

/* The first port that the system gives to connections, at which nobody listens. */
static int first_port(void)
{
    int port = 0;
    FILE *range = fopen("/proc/sys/net/ipv4/ip_local_port_range", "r");
    if (!range || fscanf(range, "%d", &port) != 1) port = 32768;
    if (range) fclose(range);
    return port;
}

/* A connect to such a port gets the port itself for its own end, once in some ten thousand tries, and is then connected to itself. */
static void nobody(void)
{
    char address[32];
    int refused = 0;
    snprintf(address, sizeof address, "127.0.0.1:%d", first_port() + 1000);
    while (refused < 20000 && refuses(address, ECONNREFUSED)) refused++;
    CHECK(refused == 20000);
}

static void paths(void)
{
    char address[200];
    struct sockaddr_un at = { .sun_family = AF_UNIX };
    snprintf(at.sun_path, sizeof at.sun_path, "/tmp/mqserve-hostile-%ld", (long)getpid());
    snprintf(address, sizeof address, "unix:%s", at.sun_path);
    CHECK(refuses(address, ECONNREFUSED));
    crowd(address, &at);
    slow_twice(address, &at);
    no_entry();
    CHECK(refuses("unix:", EINVAL));
    CHECK(refuses("unix:/", ECONNREFUSED));
    memset(address + 5, 'x', 107);
    address[112] = 0;
    CHECK(refuses(address, ECONNREFUSED));
    address[112] = 'x';
    address[113] = 0;
    CHECK(refuses(address, EINVAL));
}

int main(void)
{
    setvbuf(stdout, NULL, _IOLBF, 0);
    honest_answers();
    cut_at_each_byte(1);
    cut_at_each_byte(0);
    wrong_answers();
    lies();
    floods();
    unread();
    full_socket();
    socket_that_does_not_block();
    room_of_a_big_message();
    interrupts();
    hellos();
    paths();
    nobody();
    printf("hostile: %d checks, %d failed\n", checks, faults);
    return faults != 0;
}
