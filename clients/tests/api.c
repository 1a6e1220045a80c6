/* api.c: each call of mqserve.h on a running server, with its refusals. Arguments name parts that a server doesn't have: give, audit. */
#include "../c/mqserve.h"

#include <errno.h>
#include <poll.h>
#include <pthread.h>
#include <signal.h>
#include <stdio.h>
#include <stdlib.h>
#include <string.h>
#include <sys/socket.h>
#include <sys/time.h>
#include <unistd.h>

enum { BOUND_MS = 30000 };

static int checks, faults;
static struct mqs *a, *b;
static const struct timespec past = { 0, 0 }, odd = { 0, 1000000000 };

#define CHECK(condition) do { \
        checks++; \
        if (!(condition)) { \
            faults++; \
            printf("line %d: not so: %s (errno %s, rules %d and %d)\n", __LINE__, #condition, strerrorname_np(errno), \
                   mqs_rule(a), mqs_rule(b)); \
        } \
    } while (0)
#define REFUSED(c, call, number) CHECK((call) == -1 && mqs_rule(c) == (number) && errno == mqs_errno(number))

static char **without;

static int has(const char *part)
{
    for (char **word = without; *word; word++)
        if (!strcmp(*word, part)) return 0;
    return 1;
}

static void connections(const char *address)
{
    CHECK(!mqs_connect(address, "nobody", BOUND_MS) && errno == EACCES);
    CHECK(!mqs_connect("nonsense", "ka1", BOUND_MS) && errno == EINVAL);
    CHECK(!mqs_connect(":1", "ka1", BOUND_MS) && errno == EINVAL);
    CHECK(!mqs_connect("127.0.0.1:1", "ka1", BOUND_MS) && errno == ECONNREFUSED);
    CHECK(!mqs_attach(-1, "ka1", 100) && errno == ECONNRESET);
    CHECK(mqs_session(a) != mqs_session(b));
    CHECK(mqs_umask(a, 0) == 022 && mqs_umask(a, 07777) == 0 && mqs_umask(a, 0) == 0777);
    CHECK(mqs_move_fd(a, 300) == 0 && mqs_fd(a) >= 300);
    CHECK(mqs_lost(a) == 0 && mqs_rule(a) == 0);
    CHECK(mqs_errno(13) == ENOENT && mqs_errno(34) == EPROTO && !strcmp(mqs_rule_name(13), "Absent") && !*mqs_rule_name(0));
}

static uint64_t open_queues(uint64_t *of_b)
{
    struct mqs_attributes small = { 2, 16 };
    uint64_t q = 0;
    CHECK(mqs_mq_open(a, "/api", MQS_BOTH, MQS_CREATE | MQS_EXCLUSIVE, 0644, &small, &q) == 0);
    REFUSED(a, mqs_mq_open(a, "/api", MQS_BOTH, MQS_CREATE | MQS_EXCLUSIVE, 0644, &small, &q), 14);
    REFUSED(a, mqs_mq_open(a, "/absent", MQS_BOTH, 0, 0, NULL, &q), 13);
    REFUSED(a, mqs_mq_open(a, "api", MQS_BOTH, 0, 0, NULL, &q), 4);
    CHECK(mqs_mq_open(a, "/api", 0, 0, 0, NULL, &q) == -1 && errno == EINVAL && mqs_rule(a) == 0);
    CHECK(mqs_mq_open(a, "/api", MQS_READ, 8, 0, NULL, &q) == -1 && errno == EINVAL && mqs_rule(a) == 0);
    small.messages = 0;
    REFUSED(a, mqs_mq_open(a, "/absent", MQS_BOTH, MQS_CREATE, 0600, &small, &q), 20);
    REFUSED(b, mqs_mq_open(b, "/api", MQS_BOTH, 0, 0, NULL, of_b), 15);
    CHECK(mqs_mq_open(b, "/api", MQS_READ, 0, 0, NULL, of_b) == 0);
    REFUSED(b, mqs_mq_unlink(b, "/api"), 17);
    return q;
}

static void long_names(void)
{
    static char name[70000];
    uint64_t q;
    memset(name, 'n', sizeof name - 1);
    name[0] = '/';
    CHECK(mqs_mq_open(a, name, MQS_READ, 0, 0, NULL, &q) == -1 && errno == ENAMETOOLONG && mqs_rule(a) == 0);
    name[65535] = 0;
    REFUSED(a, mqs_mq_open(a, name, MQS_READ, 0, 0, NULL, &q), 5);
    name[60000] = '/';
    REFUSED(a, mqs_mq_unlink(a, name), 4);
}

static void messages(uint64_t q, uint64_t r)
{
    char data[16];
    uint32_t priority = 0;
    struct mqs_state state;
    CHECK(mqs_mq_getattr(a, q, &state) == 0 && state.messages == 2 && state.message_size == 16 && state.messages_now == 0 && !state.nonblock);
    CHECK(mqs_mq_send(a, q, "one", 3, 1, NULL) == 0 && mqs_mq_send(a, q, "two", 3, 7, NULL) == 0);
    CHECK(mqs_mq_send(a, q, "three", 5, 0, &past) == -1 && errno == ETIMEDOUT && mqs_rule(a) == 32);
    CHECK(mqs_mq_send(a, q, "three", 5, 0, &odd) == -1 && errno == EINVAL && mqs_rule(a) == 0);
    REFUSED(a, mqs_mq_send(a, q, "01234567890123456", 17, 0, NULL), 26);
    REFUSED(a, mqs_mq_send(a, q, "x", 1, 32768, NULL), 25);
    REFUSED(b, mqs_mq_send(b, r, "x", 1, 0, NULL), 9);
    REFUSED(b, mqs_mq_receive(b, r, data, 15, NULL, NULL), 27);
    CHECK(mqs_mq_receive(b, r, data, sizeof data, &priority, NULL) == 3 && priority == 7 && !memcmp(data, "two", 3));
    CHECK(mqs_mq_receive(b, r, data, sizeof data, NULL, &past) == 3 && !memcmp(data, "one", 3));
    CHECK(mqs_mq_receive(b, r, data, sizeof data, NULL, &past) == -1 && errno == ETIMEDOUT);
    CHECK(mqs_mq_setattr(b, r, 1, &state) == 0 && !state.nonblock && mqs_mq_setattr(b, r, 1, NULL) == 0);
    REFUSED(b, mqs_mq_receive(b, r, data, sizeof data, NULL, NULL), 29);
    CHECK(mqs_mq_setattr(b, r, 0, &state) == 0 && state.nonblock);
    REFUSED(a, mqs_mq_send(a, r, "x", 1, 0, NULL), 8);
}

static int unasked_within(struct mqs *c, int ms, int *what, uint64_t *description)
{
    struct pollfd p = { mqs_fd(c), POLLIN, 0 };
    int r = mqs_next_unasked(c, what, description);
    if (r == 0 && poll(&p, 1, ms) == 1) r = mqs_next_unasked(c, what, description);
    return r;
}

static void notices(uint64_t q, uint64_t r)
{
    int what = 0;
    uint64_t description = 99;
    char data[16];
    CHECK(mqs_next_unasked(b, &what, &description) == 0);
    CHECK(mqs_mq_notify(b, r, 1) == 0);
    REFUSED(a, mqs_mq_notify(a, q, 1), 28);
    CHECK(mqs_mq_send(a, q, "x", 1, 0, NULL) == 0);
    CHECK(unasked_within(b, BOUND_MS, &what, &description) == 1 && what == MQS_NOTICE && description == r);
    CHECK(mqs_mq_notify(b, r, 1) == 0 && mqs_mq_notify(b, r, 0) == 0);
    CHECK(mqs_mq_receive(b, r, data, sizeof data, NULL, NULL) == 1);
}

/* As mqserve.h says to wait by poll. Of the notices some come along with the answer to b's own call, and wake no poll. */
static void polled(uint64_t q, uint64_t r)
{
    enum { TIMES = 200 };
    int got = 0, what;
    uint64_t description;
    struct mqs_state state;
    char data[16];
    for (int i = 0; i < TIMES; i++) {
        CHECK(mqs_mq_notify(b, r, 1) == 0 && mqs_mq_send(a, q, "x", 1, 0, NULL) == 0);
        if (i % 2) CHECK(mqs_mq_getattr(b, r, &state) == 0);
        for (int found = 0; !found;) {
            while (mqs_next_unasked(b, &what, &description) == 1) found += what == MQS_NOTICE && description == r;
            struct pollfd p = { mqs_fd(b), POLLIN, 0 };
            if (!found && poll(&p, 1, BOUND_MS) != 1) { CHECK(0); return; }
            got += found;
        }
        CHECK(mqs_mq_receive(a, q, data, sizeof data, NULL, NULL) == 1);
    }
    CHECK(got == TIMES);
}

static void gifts(uint64_t q)
{
    int what = 0;
    uint64_t description = 99, given;
    char data[16];
    CHECK(mqs_mq_open(a, "/api", MQS_WRITE, 0, 0, NULL, &given) == 0);
    REFUSED(a, mqs_mq_give(a, given, mqs_session(a)), 33);
    REFUSED(a, mqs_mq_give(a, given, 123456789), 33);
    CHECK(mqs_mq_give(a, given, mqs_session(b)) == 0);
    CHECK(unasked_within(b, BOUND_MS, &what, &description) == 1 && what == MQS_TAKEN && description == given);
    REFUSED(a, mqs_mq_close(a, given), 8);
    CHECK(mqs_mq_send(b, given, "y", 1, 0, NULL) == 0 && mqs_mq_close(b, given) == 0);
    CHECK(mqs_mq_receive(a, q, data, sizeof data, NULL, NULL) == 1);
}

static void calls_in_parts(uint64_t q, uint64_t r)
{
    char data[16];
    uint32_t priority;
    CHECK(mqs_wait(b, NULL) == -1 && errno == EINVAL);
    CHECK(mqs_stop(b) == -1 && errno == EINVAL);
    CHECK(mqs_finish(b) == -1 && errno == EINVAL);
    CHECK(mqs_start_receive(b, r, sizeof data) == 0);
    CHECK(mqs_start_receive(b, r, sizeof data) == -1 && errno == EBUSY && mqs_rule(b) == 0);
    CHECK(mqs_umask(b, 0) == -1 && errno == EBUSY && mqs_rule(b) == 0);
    CHECK(mqs_finish_receive(b, data, sizeof data, NULL) == -1 && errno == EAGAIN);
    CHECK(mqs_finish(b) == -1 && errno == EINVAL);
    CHECK(mqs_wait(b, &past) == -1 && errno == ETIMEDOUT);
    CHECK(mqs_wait(b, &odd) == -1 && errno == EINVAL);
    CHECK(mqs_stop(b) == 1);
    CHECK(mqs_start_receive(b, r, sizeof data) == 0 && mqs_wait(b, &past) == -1);
    CHECK(mqs_mq_send(a, q, "x", 1, 3, NULL) == 0);
    CHECK(mqs_stop(b) == 0 && mqs_stop(b) == -1 && errno == EINVAL);
    CHECK(mqs_finish_receive(b, data, sizeof data, &priority) == 1 && priority == 3);
    CHECK(mqs_umask(b, 0) >= 0);   /* the late refusal of the interrupt is passed over */
    CHECK(mqs_start_receive(b, r, sizeof data) == 0);
    CHECK(mqs_mq_send(a, q, "yz", 2, 0, NULL) == 0);
    CHECK(mqs_wait(b, NULL) == 0 && mqs_wait(b, &past) == 0 && mqs_finish_receive(b, data, sizeof data, NULL) == 2);
    CHECK(mqs_start_send(a, q, "x", 1, 0) == 0 && mqs_wait_bound(a) == 0 && mqs_finish(a) == 0);
    CHECK(mqs_mq_receive(a, q, data, sizeof data, NULL, NULL) == 1);
}

static void *ask_later(void *connection)
{
    usleep(100000);
    return (void *)(long)mqs_ask_stop(connection);
}

/* Another thread asks for the end of a call while this one waits. */
static void stops_by_another(uint64_t q, uint64_t r)
{
    char data[16];
    pthread_t other;
    void *asked;
    CHECK(mqs_finish_stop(b) == -1 && errno == EINVAL);
    CHECK(mqs_start_receive(b, r, sizeof data) == 0 && pthread_create(&other, NULL, ask_later, b) == 0);
    CHECK(mqs_wait(b, NULL) == 0);
    CHECK(pthread_join(other, &asked) == 0 && asked == NULL);
    CHECK(mqs_finish_stop(b) == 1 && mqs_finish_stop(b) == -1 && errno == EINVAL);
    CHECK(mqs_mq_send(a, q, "x", 1, 3, NULL) == 0);
    CHECK(mqs_start_receive(b, r, sizeof data) == 0 && mqs_wait(b, NULL) == 0 && mqs_ask_stop(b) == 0);
    CHECK(mqs_finish_stop(b) == 0 && mqs_finish_receive(b, data, sizeof data, NULL) == 1);
    CHECK(mqs_umask(b, 0) >= 0);
}

static void nothing(int signal) { (void)signal; }

static void signals(uint64_t q)
{
    char data[16];
    struct sigaction action = { .sa_handler = nothing };
    struct itimerval soon = { { 0, 0 }, { 0, 100000 } };
    sigaction(SIGALRM, &action, NULL);
    setitimer(ITIMER_REAL, &soon, NULL);
    CHECK(mqs_mq_receive(a, q, data, sizeof data, NULL, NULL) == -1 && errno == EINTR && mqs_rule(a) == 0);
    CHECK(mqs_mq_send(a, q, "x", 1, 0, NULL) == 0 && mqs_mq_receive(a, q, data, sizeof data, NULL, NULL) == 1);
}

/* ---- Moments ---- */

static struct timespec in_ms(long ms)
{
    struct timespec t;
    clock_gettime(CLOCK_REALTIME, &t);
    t.tv_nsec += ms * 1000000;
    t.tv_sec += t.tv_nsec / 1000000000;
    t.tv_nsec %= 1000000000;
    return t;
}

static int has_come(const struct timespec *until)
{
    struct timespec now = in_ms(0);
    return now.tv_sec != until->tv_sec ? now.tv_sec > until->tv_sec : now.tv_nsec >= until->tv_nsec;
}

/* Calls that can't be served end at their moments and not before, by the rule of who keeps them. */
#define LATE(c, call) do { \
        struct timespec until = in_ms(100); \
        CHECK((call) == -1 && errno == ETIMEDOUT && mqs_rule(c) == rule && has_come(&until)); \
        CHECK(mqs_lost(c) == 0); \
    } while (0)

static void ends(uint64_t q, uint64_t r, uint64_t s, int rule)
{
    static const struct timespec old[] = { { 0, 0 }, { 0, 999999999 }, { 1, 0 }, { -1, 999999999 }, { INT64_MIN, 0 } };
    char data[16];
    LATE(b, mqs_mq_receive(b, r, data, sizeof data, NULL, &until));
    LATE(a, mqs_sem_wait(a, s, &until));
    CHECK(mqs_mq_send(a, q, "1", 1, 0, NULL) == 0 && mqs_mq_send(a, q, "2", 1, 0, NULL) == 0);
    LATE(a, mqs_mq_send(a, q, "3", 1, 9, &until));
    for (size_t i = 0; i < sizeof old / sizeof *old; i++) {
        CHECK(mqs_mq_send(a, q, "3", 1, 9, &old[i]) == -1 && errno == ETIMEDOUT && mqs_rule(a) == rule);
        CHECK(mqs_sem_wait(a, s, &old[i]) == -1 && errno == ETIMEDOUT && mqs_rule(a) == rule);
    }
    for (char i = '1'; i <= '2'; i++) CHECK(mqs_mq_receive(b, r, data, sizeof data, NULL, &old[2]) == 1 && data[0] == i);
    CHECK(mqs_mq_receive(b, r, data, sizeof data, NULL, &old[3]) == -1 && errno == ETIMEDOUT && mqs_rule(b) == rule);
}

struct later { uint64_t q, s; };

static void *serve_later(void *arg)
{
    const struct later *l = arg;
    usleep(100000);
    return (void *)(long)(mqs_mq_send(a, l->q, "late", 4, 31, NULL) | mqs_sem_post(a, l->s));
}

/* Calls that are served at once, and while they wait: with a moment that is near, and with one that the clock never reaches. */
static void served(uint64_t q, uint64_t r, uint64_t s)
{
    static const struct timespec never = { INT64_MAX, 999999999 };
    struct timespec far = in_ms(20000);
    struct later l = { q, s };
    char data[16];
    uint32_t priority = 0;
    pthread_t other;
    void *failed;
    CHECK(mqs_mq_send(a, q, "0123456789abcdef", 16, 32767, &far) == 0 && mqs_mq_send(a, q, "", 0, 0, &never) == 0);
    CHECK(mqs_mq_receive(b, r, data, 16, &priority, &far) == 16 && priority == 32767 && !memcmp(data, "0123456789abcdef", 16));
    CHECK(mqs_mq_receive(b, r, data, 16, &priority, &never) == 0 && priority == 0);
    CHECK(pthread_create(&other, NULL, serve_later, &l) == 0);
    CHECK(mqs_mq_receive(b, r, data, 16, &priority, &far) == 4 && priority == 31 && !memcmp(data, "late", 4));
    CHECK(pthread_join(other, &failed) == 0 && !failed && mqs_sem_wait(a, s, &never) == 0);
    CHECK(mqs_mq_receive(b, r, data, 16, NULL, &past) == -1 && errno == ETIMEDOUT);
}

/* A signal ends a call with a moment, whatever its handler says. */
static void ended_by_signals(uint64_t q, uint64_t r, uint64_t s)
{
    char data[16];
    struct itimerval soon = { { 0, 0 }, { 0, 50000 } };
    for (int flags = 0; flags != -1; flags = flags ? -1 : SA_RESTART) {
        struct sigaction action = { .sa_handler = nothing, .sa_flags = flags };
        struct timespec far = in_ms(20000);
        sigaction(SIGALRM, &action, NULL);
        setitimer(ITIMER_REAL, &soon, NULL);
        CHECK(mqs_mq_receive(b, r, data, sizeof data, NULL, &far) == -1 && errno == EINTR && mqs_rule(b) == 0);
        setitimer(ITIMER_REAL, &soon, NULL);
        CHECK(mqs_sem_wait(a, s, &far) == -1 && errno == EINTR && mqs_rule(a) == 0);
    }
    CHECK(mqs_mq_send(a, q, "x", 1, 0, NULL) == 0 && mqs_mq_receive(b, r, data, sizeof data, NULL, NULL) == 1);
}

/* What else can refuse a call refuses it with a moment too, and before that. */
static void refused_with_moments(uint64_t q, uint64_t r)
{
    struct timespec far = in_ms(20000);
    char data[16];
    REFUSED(a, mqs_mq_send(a, q, "01234567890123456", 17, 0, &far), 26);
    REFUSED(a, mqs_mq_send(a, q, "x", 1, 32768, &past), 25);
    REFUSED(a, mqs_mq_send(a, r, "x", 1, 0, &far), 8);
    REFUSED(a, mqs_sem_wait(a, q, &past), 8);
    REFUSED(b, mqs_mq_send(b, r, "x", 1, 0, &past), 9);
    REFUSED(b, mqs_mq_receive(b, r, data, 15, NULL, &far), 27);
    CHECK(mqs_mq_receive(b, r, data, 16, NULL, &odd) == -1 && errno == EINVAL && mqs_rule(b) == 0);
    CHECK(mqs_mq_setattr(b, r, 1, NULL) == 0);
    REFUSED(b, mqs_mq_receive(b, r, data, 16, NULL, &past), 29);
    REFUSED(b, mqs_mq_receive(b, r, data, 16, NULL, &far), 29);
    CHECK(mqs_mq_setattr(b, r, 0, NULL) == 0);
}

/* By the server's clock, as both connections begin, and by this side's. */
static void moments(uint64_t q, uint64_t r)
{
    uint64_t s;
    CHECK(mqs_sem_open(a, "/api", MQS_CREATE, 0600, 0, &s) == 0);
    for (int is_shared = 1; is_shared >= 0; is_shared--) {
        mqs_set_shared_clock(a, is_shared);
        mqs_set_shared_clock(b, is_shared);
        ends(q, r, s, is_shared ? 32 : 0);
        served(q, r, s);
        ended_by_signals(q, r, s);
        refused_with_moments(q, r);
    }
    mqs_set_shared_clock(a, 1);
    mqs_set_shared_clock(b, 1);
    CHECK(mqs_sem_close(a, s) == 0 && mqs_sem_unlink(a, "/api") == 0);
}

static int count_names(const char *name, size_t size, void *arg)
{
    *(int *)arg += size == 4 && !memcmp(name, "/api", 4);
    return 0;
}

static void modes(void)
{
    struct mqs_facts facts;
    int names = 0;
    CHECK(mqs_stat(b, MQS_QUEUES, "/api", &facts) == 0 && facts.owner == 1000 && facts.group == 1000 && facts.mode == 0644);
    CHECK(mqs_stat(b, MQS_SEMAPHORES, NULL, &facts) == 0 && facts.owner == 0 && facts.mode == 01777);
    REFUSED(b, mqs_stat(b, MQS_QUEUES, "/absent", &facts), 13);
    CHECK(mqs_stat(b, 3, NULL, &facts) == -1 && errno == EINVAL && mqs_rule(b) == 0);
    CHECK(mqs_chmod(a, MQS_QUEUES, "/api", 0600) == 0 && mqs_chown(a, MQS_QUEUES, "/api", -1, 50) == 0);
    REFUSED(b, mqs_chmod(b, MQS_QUEUES, NULL, 0), 18);
    REFUSED(b, mqs_chown(b, MQS_QUEUES, "/api", 1001, -1), 19);
    CHECK(mqs_chown(b, MQS_QUEUES, "/api", -2, -1) == -1 && errno == EINVAL && mqs_rule(b) == 0);
    CHECK(mqs_list(a, MQS_QUEUES, 0, count_names, &names) >= 1 && names == 1);
    CHECK(mqs_list(a, MQS_QUEUES, 100000, count_names, &names) == 0);
}

static void semaphores(void)
{
    uint64_t s;
    uint32_t value;
    CHECK(mqs_sem_open(a, "/api", MQS_CREATE, 0600, 1, &s) == 0);
    REFUSED(a, mqs_sem_open(a, "/api2", MQS_CREATE, 0600, 2147483648u, &s), 21);
    CHECK(mqs_sem_open(a, "/api", MQS_NONBLOCK, 0600, 0, &s) == -1 && errno == EINVAL && mqs_rule(a) == 0);
    CHECK(mqs_sem_wait(a, s, NULL) == 0);
    REFUSED(a, mqs_sem_trywait(a, s), 29);
    CHECK(mqs_sem_wait(a, s, &past) == -1 && errno == ETIMEDOUT);
    CHECK(mqs_sem_post(a, s) == 0 && mqs_sem_getvalue(a, s, &value) == 0 && value == 1);
    CHECK(mqs_start_sem_wait(a, s) == 0 && mqs_wait(a, NULL) == 0 && mqs_finish(a) == 0);
    if (has("give")) REFUSED(a, mqs_mq_give(a, s, mqs_session(b)), 8);
    CHECK(mqs_sem_close(a, s) == 0 && mqs_sem_unlink(a, "/api") == 0);
    REFUSED(a, mqs_sem_unlink(a, "/api"), 13);
}

static int count_records(const struct mqs_record *record, void *arg)
{
    *(int *)arg += record->rule == 31;   /* the hello with a key that nobody has */
    return 0;
}

static void administration(const char *address)
{
    int found = 0, page;
    REFUSED(a, mqs_set_limit(a, 1000, 1), 6);
    REFUSED(a, mqs_audit(a, 0, count_records, &found), 6);
    struct mqs *root = mqs_connect(address, "r00t", BOUND_MS);
    CHECK(root && mqs_set_limit(root, 1000, 819200) == 0);
    REFUSED(root, mqs_set_limit(root, 77, 1), 7);
    /* Each audit is a record too, so the last page is one that isn't full. */
    for (uint64_t at = 0; (page = mqs_audit(root, at, count_records, &found)) == 1000; at += 1000);
    CHECK(page > 0 && found > 0);
    mqs_disconnect(root);
}

static void disconnects(uint64_t q)
{
    uint64_t description;
    int what;
    shutdown(mqs_fd(b), SHUT_RDWR);
    CHECK(mqs_umask(b, 0) == -1 && errno == ECONNRESET && mqs_lost(b) == ECONNRESET);
    CHECK(mqs_mq_close(b, q) == -1 && errno == ECONNRESET);
    CHECK(mqs_start_receive(b, q, 16) == -1 && errno == ECONNRESET);
    CHECK(mqs_ask_stop(b) == -1 && errno == ECONNRESET && mqs_finish_stop(b) == -1 && errno == ECONNRESET);
    CHECK(mqs_next_unasked(b, &what, &description) == -1 && errno == ECONNRESET);
    mqs_disconnect(NULL);
}

int main(int argc, char **argv)
{
    const char *address = getenv("MQSERVE");
    uint64_t r = 0;
    without = argv + (argc > 0);
    setvbuf(stdout, NULL, _IOLBF, 0);
    a = mqs_connect(address, "ka1", BOUND_MS);
    b = mqs_connect(address, "kb1", BOUND_MS);
    if (!a || !b) {
        perror("connect");
        return 1;
    }
    mqs_mq_unlink(a, "/api");   /* of an earlier run */
    mqs_sem_unlink(a, "/api");
    connections(address);
    uint64_t q = open_queues(&r);
    long_names();
    messages(q, r);
    notices(q, r);
    polled(q, r);
    if (has("give")) gifts(q);
    calls_in_parts(q, r);
    stops_by_another(q, r);
    signals(q);
    moments(q, r);
    modes();
    semaphores();
    if (has("audit")) administration(address);
    CHECK(mqs_mq_close(b, r) == 0);
    REFUSED(b, mqs_mq_close(b, r), 8);
    disconnects(q);
    CHECK(mqs_mq_unlink(a, "/api") == 0 && mqs_mq_close(a, q) == 0);
    mqs_disconnect(a);
    mqs_disconnect(b);
    printf("api: %d checks, %d failed\n", checks, faults);
    return faults != 0;
}
