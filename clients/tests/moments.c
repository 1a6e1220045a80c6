/* moments.c: which calls the server gets a moment of, what deadline it reads, and what becomes of a call whose server ends it before its
 * moment, late or never. The server is the other end of a pair of sockets. */
#include "pair.h"

#include <arpa/inet.h>
#include <ifaddrs.h>
#include <net/if.h>
#include <netinet/in.h>
#include <netinet/tcp.h>
#include <signal.h>
#include <sys/time.h>

enum kind { SEND, RECEIVE, WAIT, KINDS };

struct frame { uint8_t bytes[16]; size_t size; };
static const struct frame served[KINDS] = {
    { { 0, 0, 0, 1, SENT }, 5 }, { { 0, 0, 0, 8, RECEIVED, 0, 0, 0, 7, 'a', 'b', 'c' }, 12 }, { { 0, 0, 0, 1, DONE }, 5 },
};
static const struct frame interrupted = { { 0, 0, 0, 1, INTERRUPTED, 0, 0, 0, 1, DONE }, 10 };
static const struct frame refused = { { 0, 0, 0, 3, REFUSED, 0, TIMED_OUT }, 7 };

static long call(struct mqs *c, enum kind kind, const struct timespec *until)
{
    char data[8];
    if (kind == SEND) return mqs_mq_send(c, 1, "x", 1, 0, until);
    return kind == RECEIVE ? mqs_mq_receive(c, 1, data, sizeof data, NULL, until) : mqs_sem_wait(c, 1, until);
}

/* What the client sent since the last look, a letter a request: T a call with a moment, P one without, I an Interrupt, X anything else. */
static const char *sent(enum kind kind)
{
    static const int timed[] = { MQ_TIMED_SEND, MQ_TIMED_RECEIVE, SEM_TIMED_WAIT }, plain[] = { MQ_SEND, MQ_RECEIVE, SEM_WAIT };
    static char letters[32];
    uint8_t bytes[1000];
    ssize_t size = recv(server, bytes, sizeof bytes, MSG_DONTWAIT);
    size_t count = 0;
    for (ssize_t at = 0; at < size; at += 4 + (ssize_t)mqsi_get(bytes + at, 4)) {
        int op = bytes[at + 4];
        letters[count++] = op == timed[kind] ? 'T' : op == plain[kind] ? 'P' : op == INTERRUPT ? 'I' : 'X';
    }
    letters[count] = 0;
    return letters;
}

static int is_before(const struct timespec *a, const struct timespec *b)
{
    return a->tv_sec != b->tv_sec ? a->tv_sec < b->tv_sec : a->tv_nsec < b->tv_nsec;
}

/* ---- Servers that keep moments well and ill ---- */

enum outcome { SERVED, LATE, ABORTED };

/* What comes at once, and what comes later: nothing, a refusal by rule 32, the call's answer, or that of an Interrupt. It comes while the
 * moment is far, once it has come, or once the client has sent an Interrupt: none of this depends on how busy the machine is, but that a
 * server has two seconds from the moment on. */
enum reply { NOTHING, REFUSAL, ANSWER, WITHDRAWN };
enum when { AT_ONCE, BEFORE, AFTER, STOPPED };
struct story { enum reply first, then; enum when when; int bound_ms; enum outcome outcome; int rule; const char *requests; int is_shared_still; };

enum { MOMENT_MS = 300, SOON_MS = 50 };

static const struct story stories[] = {
    { ANSWER, NOTHING, AT_ONCE, LONG_MS, SERVED, 0, "T", 1 },
    { NOTHING, ANSWER, BEFORE, LONG_MS, SERVED, 0, "T", 1 },
    { NOTHING, REFUSAL, AFTER, LONG_MS, LATE, TIMED_OUT, "T", 1 },
    { NOTHING, ANSWER, AFTER, LONG_MS, SERVED, 0, "T", 1 },
    /* Refused before its moment: the server's clock is another, and the call is made again without a moment. */
    { REFUSAL, ANSWER, BEFORE, LONG_MS, SERVED, 0, "TP", 0 },
    { REFUSAL, WITHDRAWN, STOPPED, LONG_MS, LATE, 0, "TPI", 0 },
    { REFUSAL, ANSWER, STOPPED, LONG_MS, SERVED, 0, "TPI", 0 },
    { REFUSAL, NOTHING, AT_ONCE, BOUND_MS, ABORTED, 0, "TPI", 0 },
    /* Not answered in time, and never. */
    { NOTHING, WITHDRAWN, STOPPED, LONG_MS, LATE, 0, "TI", 0 },
    { NOTHING, ANSWER, STOPPED, LONG_MS, SERVED, 0, "TI", 0 },
    { NOTHING, REFUSAL, STOPPED, LONG_MS, LATE, TIMED_OUT, "TI", 0 },
    { NOTHING, NOTHING, AT_ONCE, BOUND_MS, ABORTED, 0, "TI", 0 },
};

static const struct frame *frame_of(enum reply reply, enum kind kind)
{
    static const struct frame nothing = { { 0 }, 0 };
    return reply == REFUSAL ? &refused : reply == ANSWER ? &served[kind] : reply == WITHDRAWN ? &interrupted : &nothing;
}

/* Whether the last request that stands at the server is an Interrupt. */
static int has_stopped(void)
{
    static const uint8_t stop[] = { 0, 0, 0, 1, INTERRUPT };
    uint8_t bytes[1000];
    ssize_t size = recv(server, bytes, sizeof bytes, MSG_PEEK | MSG_DONTWAIT);
    return size >= (ssize_t)sizeof stop && !memcmp(bytes + size - sizeof stop, stop, sizeof stop);
}

struct told { const struct frame *then; enum when when; struct timespec until; };

static void *answer_when(void *arg)
{
    const struct told *t = arg;
    if (t->when == BEFORE) usleep(SOON_MS * 1000);
    if (t->when == AFTER) while (clock_nanosleep(CLOCK_REALTIME, TIMER_ABSTIME, &t->until, NULL)) {}
    for (double end = seconds() + LATE_S; t->when == STOPPED && !has_stopped() && seconds() < end;) usleep(1000);
    put(t->then->bytes, t->then->size);
    return NULL;
}

static void tell(const struct story *s, enum kind kind)
{
    const struct frame *first = frame_of(s->first, kind);
    struct timespec until = in_ms(s->when == BEFORE ? LONG_MS : MOMENT_MS);
    struct told t = { frame_of(s->then, kind), s->when, until };
    pthread_t thread;
    int before = faults;
    struct mqs *c = fresh();
    sent(kind);
    put(first->bytes, first->size);
    mqs_set_bound(c, s->bound_ms);
    pthread_create(&thread, NULL, answer_when, &t);
    double start = seconds();
    long r = call(c, kind, &until);
    int error = errno;
    struct timespec now = in_ms(0);
    pthread_join(thread, NULL);
    CHECK(seconds() - start < LATE_S);
    CHECK(s->outcome == SERVED ? r == (kind == RECEIVE ? 3 : 0) : r == -1 && !is_before(&now, &until));
    CHECK(s->outcome == SERVED || error == (s->outcome == LATE ? ETIMEDOUT : ECONNABORTED));
    CHECK(mqs_rule(c) == s->rule && mqs_lost(c) == (s->outcome == ABORTED ? ECONNABORTED : 0));
    CHECK(!strcmp(sent(kind), s->requests));
    CHECK(mqsi_shares_clock(c) == s->is_shared_still);
    if (faults > before) printf("in story %d of call %d\n", (int)(s - stories), (int)kind);
    end(c);
}

/* Stories that take their time are told of one kind of call. */
static void tell_all(void)
{
    for (size_t i = 0; i < sizeof stories / sizeof *stories; i++)
        for (enum kind k = SEND; k < KINDS; k++) {
            int is_slow = stories[i].first == NOTHING && (stories[i].then == NOTHING || stories[i].when == STOPPED);
            if (!is_slow || k == RECEIVE) tell(&stories[i], k);
        }
}

static void nothing(int signal) { (void)signal; }

/* A signal ends a call whose moment the server has, and the server says which came first. */
static void disturb(enum kind k, const struct frame *answer)
{
    struct told t = { answer, STOPPED, { 0, 0 } };
    struct itimerval often = { { 0, SOON_MS * 1000 }, { 0, SOON_MS * 1000 } }, never = { 0 };
    struct timespec until = in_ms(LONG_MS);
    pthread_t thread;
    sigset_t alarms, old;
    struct mqs *c = fresh();
    sent(k);
    mqs_set_bound(c, LONG_MS);
    sigemptyset(&alarms);
    sigaddset(&alarms, SIGALRM);
    pthread_sigmask(SIG_BLOCK, &alarms, &old);   /* the signal is for the thread that waits */
    pthread_create(&thread, NULL, answer_when, &t);
    pthread_sigmask(SIG_SETMASK, &old, NULL);
    setitimer(ITIMER_REAL, &often, NULL);
    long r = call(c, k, &until);
    CHECK(answer == &interrupted ? r == -1 && errno == EINTR : r >= 0);
    setitimer(ITIMER_REAL, &never, NULL);
    pthread_join(thread, NULL);
    CHECK(!strcmp(sent(k), "TI") && mqs_rule(c) == 0 && mqsi_shares_clock(c));
    end(c);
}

static void signals(void)
{
    struct sigaction action = { .sa_handler = nothing };
    sigaction(SIGALRM, &action, NULL);
    for (enum kind k = SEND; k < KINDS; k++) {
        disturb(k, &interrupted);
        disturb(k, &served[k]);
    }
}

/* ---- Deadlines ---- */

/* The deadline that a moment becomes, as the server reads it. */
static uint64_t deadline_of(struct timespec until)
{
    uint8_t frame[64];
    struct mqs *c = fresh();
    sent(WAIT);
    put(served[WAIT].bytes, served[WAIT].size);
    CHECK(mqs_sem_wait(c, 1, &until) == 0);
    CHECK(recv(server, frame, sizeof frame, 0) == 21 && frame[4] == SEM_TIMED_WAIT && mqsi_get(frame + 5, 8) == 1);
    end(c);
    return mqsi_get(frame + 13, 8);
}

static void deadlines(void)
{
    static const uint64_t last = UINT64_MAX / 1000;   /* the last second of which some milliseconds are deadlines */
    struct timespec now = in_ms(0);
    uint64_t second = (uint64_t)now.tv_sec + 1000;
    CHECK(deadline_of((struct timespec){ second, 0 }) == second * 1000);
    CHECK(deadline_of((struct timespec){ second, 1 }) == second * 1000 + 1);
    CHECK(deadline_of((struct timespec){ second, 500000000 }) == second * 1000 + 500);
    CHECK(deadline_of((struct timespec){ second, 500000001 }) == second * 1000 + 501);
    CHECK(deadline_of((struct timespec){ second, 999999999 }) == second * 1000 + 1000);
    CHECK(deadline_of((struct timespec){ last - 1, 999999999 }) == last * 1000);
    CHECK(deadline_of((struct timespec){ last, 614000000 }) == UINT64_MAX - 1);
    CHECK(deadline_of((struct timespec){ last, 614000001 }) == UINT64_MAX);
    CHECK(deadline_of((struct timespec){ last, 615000001 }) == UINT64_MAX);
    CHECK(deadline_of((struct timespec){ last + 1, 0 }) == UINT64_MAX);
    CHECK(deadline_of((struct timespec){ INT64_MAX, 999999999 }) == UINT64_MAX);
    CHECK(deadline_of((struct timespec){ now.tv_sec - 1, 0 }) == 0);
    CHECK(deadline_of((struct timespec){ 0, 0 }) == 0);
    CHECK(deadline_of((struct timespec){ -1, 999999999 }) == 0);
    CHECK(deadline_of((struct timespec){ INT64_MIN, 0 }) == 0);
}

/* Where the other fields stand, and that what has no moment, or is no moment, is as it was. */
static void frames(void)
{
    static const uint8_t sends[] = { 0, 0, 0, 24, 26, 0, 0, 0, 0, 0, 0, 0, 9, 0, 0, 0, 5, 0, 0, 0, 0, 0, 0, 0, 0, 'h', 'i', '!' };
    static const uint8_t receives[] = { 0, 0, 0, 21, 27, 0, 0, 0, 0, 0, 0, 0, 9, 0, 0, 0, 8, 0, 0, 0, 0, 0, 0, 0, 0 };
    struct timespec past = { 0, 0 }, odd = { 0, -1 };
    uint8_t frame[64];
    char data[8];
    struct mqs *c = fresh();
    sent(SEND);
    put(refused.bytes, refused.size);
    CHECK(mqs_mq_send(c, 9, "hi!", 3, 5, &past) == -1 && errno == ETIMEDOUT && mqs_rule(c) == TIMED_OUT);
    CHECK(recv(server, frame, sizeof frame, 0) == sizeof sends && !memcmp(frame, sends, sizeof sends));
    put(refused.bytes, refused.size);
    CHECK(mqs_mq_receive(c, 9, data, sizeof data, NULL, &past) == -1 && errno == ETIMEDOUT && mqs_rule(c) == TIMED_OUT);
    CHECK(recv(server, frame, sizeof frame, 0) == sizeof receives && !memcmp(frame, receives, sizeof receives));
    for (enum kind k = SEND; k < KINDS; k++) {
        CHECK(call(c, k, &odd) == -1 && errno == EINVAL && mqs_rule(c) == 0 && !*sent(k));
        put(served[k].bytes, served[k].size);
        CHECK(call(c, k, NULL) >= 0 && !strcmp(sent(k), "P"));
    }
    end(c);
}

/* ---- Whose clock ---- */

static int is_here(const char *address)
{
    struct sockaddr_in four = { .sin_family = AF_INET };
    struct sockaddr_in6 six = { .sin6_family = AF_INET6 };
    if (inet_pton(AF_INET, address, &four.sin_addr) == 1) return mqsi_is_here((const struct sockaddr *)&four);
    if (inet_pton(AF_INET6, address, &six.sin6_addr) != 1) abort();
    return mqsi_is_here((const struct sockaddr *)&six);
}

static int option(int fd, int level, int name)
{
    int value = -1;
    socklen_t size = sizeof value;
    return getsockopt(fd, level, name, &value, &size) < 0 ? -1 : value;
}

/* Whether a server at this address gets moments. It is probed while it says nothing. */
static int gets_moments(struct sockaddr_in at)
{
    int listener = socket(AF_INET, SOCK_STREAM, 0), client = socket(AF_INET, SOCK_STREAM, 0);
    socklen_t size = sizeof at;
    struct timespec until = in_ms(LONG_MS);
    if (bind(listener, (const struct sockaddr *)&at, size) < 0 || listen(listener, 1) < 0) abort();
    if (getsockname(listener, (struct sockaddr *)&at, &size) < 0 || connect(client, (const struct sockaddr *)&at, size) < 0) abort();
    server = accept(listener, NULL, NULL);
    close(listener);
    put(started, sizeof started);
    struct mqs *c = mqs_attach(client, "key", LONG_MS);
    if (!c) abort();
    CHECK(option(client, SOL_SOCKET, SO_KEEPALIVE) == 1 && option(client, IPPROTO_TCP, TCP_KEEPIDLE) == 60);
    CHECK(option(client, IPPROTO_TCP, TCP_KEEPINTVL) == 10 && option(client, IPPROTO_TCP, TCP_KEEPCNT) == 6);
    sent(RECEIVE);
    put(served[RECEIVE].bytes, served[RECEIVE].size);
    CHECK(call(c, RECEIVE, &until) == 3);
    int gets = !strcmp(sent(RECEIVE), "T");
    end(c);
    return gets;
}

/* An address of this machine that isn't a loopback one is as any other machine's. */
static void clocks(void)
{
    struct sockaddr none = { .sa_family = AF_UNSPEC };
    struct sockaddr_in at = { .sin_family = AF_INET };
    struct ifaddrs *all = NULL;
    int others = 0;
    CHECK(is_here("127.0.0.1") && is_here("127.255.3.2") && is_here("::1") && is_here("::ffff:127.0.0.1"));
    CHECK(!is_here("126.0.0.1") && !is_here("128.0.0.1") && !is_here("0.0.0.0") && !is_here("10.0.0.127") && !is_here("192.0.2.1"));
    CHECK(!is_here("::") && !is_here("::2") && !is_here("fe80::1") && !is_here("::ffff:10.0.0.1") && !is_here("::7f00:1"));
    CHECK(!mqsi_is_here(&none));
    at.sin_addr.s_addr = htonl(INADDR_LOOPBACK);
    CHECK(gets_moments(at));
    if (getifaddrs(&all) < 0) abort();
    for (struct ifaddrs *one = all; one && !others; one = one->ifa_next) {
        if (!one->ifa_addr || one->ifa_addr->sa_family != AF_INET || (one->ifa_flags & IFF_LOOPBACK)) continue;
        at.sin_addr = ((const struct sockaddr_in *)(const void *)one->ifa_addr)->sin_addr;
        CHECK(!gets_moments(at));
        others++;
    }
    freeifaddrs(all);
    if (!others) printf("moments: this machine has loopback addresses alone; others are passed over\n");
}

/* What mqs_set_shared_clock says counts, whatever the address. */
static void said(void)
{
    struct timespec until = in_ms(LONG_MS);
    struct mqs *c = fresh();
    for (enum kind k = SEND; k < KINDS; k++)
        for (int is_shared = 0; is_shared <= 1; is_shared++) {
            sent(k);
            mqs_set_shared_clock(c, is_shared);
            put(served[k].bytes, served[k].size);
            CHECK(call(c, k, &until) >= 0 && !strcmp(sent(k), is_shared ? "T" : "P"));
        }
    end(c);
}

int main(void)
{
    setvbuf(stdout, NULL, _IOLBF, 0);
    tell_all();
    signals();
    deadlines();
    frames();
    clocks();
    said();
    printf("moments: %d checks, %d failed\n", checks, faults);
    return faults != 0;
}
