/* jobs.c: each call of mqserve_jobs.h on a running server, with its errors. Some sessions go through a proxy that counts their requests:
 * one ends before each of them, as where its process is killed, or stops there while another session calls. */
#include "../c/mqserve_jobs.h"

#include <errno.h>
#include <netdb.h>
#include <pthread.h>
#include <signal.h>
#include <stdio.h>
#include <stdlib.h>
#include <string.h>
#include <sys/socket.h>
#include <sys/time.h>
#include <sys/un.h>
#include <unistd.h>

enum { BOUND_MS = 30000, LOOK_MS = 200, TRIES = 3, NEVER = 1000 };

static int checks, faults;
static const char *address, *key, *other_key;
static char pool_name[64];
static struct mqs *a;
static struct mqs_jobs *jobs;
static const struct timespec past = { 0, 0 }, odd = { 0, 1000000000 };

#define CHECK(condition) do { \
        checks++; \
        if (!(condition)) { \
            faults++; \
            printf("line %d: not so: %s (errno %s, rule %d)\n", __LINE__, #condition, strerrorname_np(errno), mqs_rule(a)); \
        } \
    } while (0)
#define FAILS(call, error) CHECK((call) == -1 && errno == (error))

static void must(int is_so, const char *what)
{
    if (is_so) return;
    perror(what);
    exit(1);
}

/* ---- The proxy: a session's socket, whose requests are counted ---- */

struct proxy {
    int client, server;         /* ends of the proxy's own */
    int stop, seen;             /* before which request something happens, the first is 0; how many were passed on */
    void (*at_stop)(void *);    /* NULL: the session ends */
    void *arg;
    int has_stopped;
    pthread_t thread;
};

static int dial(void)
{
    struct sockaddr_un at = { .sun_family = AF_UNIX };
    struct addrinfo hints = { .ai_socktype = SOCK_STREAM }, *found;
    char host[256];
    if (!strncmp(address, "unix:", 5)) {
        snprintf(at.sun_path, sizeof at.sun_path, "%s", address + 5);
        int fd = socket(AF_UNIX, SOCK_STREAM, 0);
        must(fd >= 0 && connect(fd, (struct sockaddr *)&at, sizeof at) == 0, "connect");
        return fd;
    }
    snprintf(host, sizeof host, "%s", address);
    char *colon = strrchr(host, ':');
    *colon = 0;
    must(getaddrinfo(host, colon + 1, &hints, &found) == 0, "getaddrinfo");
    int fd = socket(found->ai_family, SOCK_STREAM, 0);
    must(fd >= 0 && connect(fd, found->ai_addr, found->ai_addrlen) == 0, "connect");
    freeaddrinfo(found);
    return fd;
}

/* Ends the session, and waits until the server has seen it. */
static void end_session(struct proxy *p)
{
    char rest[4096];
    shutdown(p->server, SHUT_WR);
    while (recv(p->server, rest, sizeof rest, 0) > 0);
    close(p->server);
    shutdown(p->client, SHUT_RDWR);
}

static void *pass_answers(void *arg)
{
    struct proxy *p = arg;
    char data[65536];
    ssize_t size;
    while ((size = recv(p->server, data, sizeof data, 0)) > 0)
        if (send(p->client, data, (size_t)size, MSG_NOSIGNAL) != size) break;
    return NULL;
}

static void *pass_requests(void *arg)
{
    struct proxy *p = arg;
    unsigned char frame[65536];
    pthread_t answers;
    must(pthread_create(&answers, NULL, pass_answers, p) == 0, "thread");
    while (recv(p->client, frame, 4, MSG_WAITALL) == 4) {
        size_t size = (size_t)frame[0] << 24 | (size_t)frame[1] << 16 | (size_t)frame[2] << 8 | frame[3];
        if (size > sizeof frame - 4 || recv(p->client, frame + 4, size, MSG_WAITALL) != (ssize_t)size) break;
        if (p->seen == p->stop && (p->has_stopped = 1) && !p->at_stop) break;
        if (p->seen++ == p->stop) p->at_stop(p->arg);
        if (send(p->server, frame, size + 4, MSG_NOSIGNAL) != (ssize_t)size + 4) break;
    }
    end_session(p);
    pthread_join(answers, NULL);
    return NULL;
}

/* A session of the pool's user by a proxy, and the pool in it. The requests count from here on. */
static struct mqs *begin(struct proxy *p, struct mqs_jobs **pool, int stop, void (*at_stop)(void *), void *arg)
{
    int ends[2];
    must(socketpair(AF_UNIX, SOCK_STREAM, 0, ends) == 0, "socketpair");
    *p = (struct proxy){ .client = ends[1], .server = dial(), .stop = NEVER, .at_stop = at_stop, .arg = arg };
    must(pthread_create(&p->thread, NULL, pass_requests, p) == 0, "thread");
    struct mqs *c = mqs_attach(ends[0], key, BOUND_MS);
    must(c && (*pool = mqs_jobs_open(c, pool_name, TRIES, LOOK_MS)), "a session by the proxy");
    p->seen = 0;
    p->stop = stop;
    return c;
}

static void finish(struct proxy *p, struct mqs *c, struct mqs_jobs *pool)
{
    p->stop = NEVER;
    mqs_jobs_close(pool);
    mqs_disconnect(c);
    pthread_join(p->thread, NULL);
    close(p->client);
}

/* ---- What a pool has ---- */

static int is_data(const struct mqs_job *job, const char *text)
{
    return job->size == strlen(text) && !memcmp(job->data, text, job->size);
}

static int remember(const char *name, void *arg)
{
    snprintf(arg, MQS_JOB_NAME, "%s", name);
    return 0;
}

/* Takes and ends all jobs, buries dead ones and sweeps. How many had this text; 100 more for each that had not, or was left. */
static int drain(const char *text)
{
    struct mqs_job job;
    char name[MQS_JOB_NAME];
    int count = 0;
    while (mqs_jobs_take(jobs, &past, &job) == 0) {
        count += is_data(&job, text) ? 1 : 100;
        mqs_jobs_done(jobs, &job);
    }
    while (mqs_jobs_dead(jobs, remember, name) > 0) {
        job.size = (size_t)mqs_jobs_bury(jobs, name, &job.data);
        count += is_data(&job, text) ? 1 : 100;
        free(job.data);
    }
    mqs_jobs_sweep(jobs);
    return count + 100 * mqs_jobs_pending(jobs);
}

static void put(const char *text) { CHECK(mqs_jobs_put(jobs, text, strlen(text)) == 0); }

/* Puts a job and uses up its tries. */
static void make_dead(char *name)
{
    struct mqs_job job;
    put("dead");
    for (int i = 0; i < TRIES; i++) CHECK(mqs_jobs_take(jobs, &past, &job) == 0 && mqs_jobs_give_back(jobs, &job) == 0);
    FAILS(mqs_jobs_take(jobs, &past, &job), ETIMEDOUT);
    CHECK(mqs_jobs_dead(jobs, remember, name) == 1);
}

static unsigned mode_of(const char *name)
{
    struct mqs_facts facts = { 0 };
    mqs_stat(a, MQS_QUEUES, name, &facts);
    return facts.mode;
}

/* ---- Each call ---- */

static void pools(void)
{
    struct mqs *other = mqs_connect(address, other_key, BOUND_MS);
    char name[300] = "/";
    memset(name + 1, 'n', 235);
    CHECK(!mqs_jobs_open(a, pool_name, 0, LOOK_MS) && errno == EINVAL);
    CHECK(!mqs_jobs_open(a, pool_name, 1, 0) && errno == EINVAL);
    CHECK(!mqs_jobs_open(a, "pool", 1, 1) && errno == EINVAL);
    CHECK(!mqs_jobs_open(a, name, 1, 1) && errno == ENAMETOOLONG);
    must(other != NULL, "connect");
    CHECK(!mqs_jobs_open(other, pool_name, TRIES, LOOK_MS) && errno == EACCES);
    mqs_chmod(a, MQS_QUEUES, pool_name, 0666);
    CHECK(!mqs_jobs_open(other, pool_name, TRIES, LOOK_MS) && errno == EPERM);
    mqs_chmod(a, MQS_QUEUES, pool_name, 0600);
    mqs_disconnect(other);
    mqs_jobs_close(NULL);
}

static void puts_and_takes(void)
{
    struct mqs_job job;
    put("one");
    put("");
    CHECK(mqs_jobs_pending(jobs) == 2);
    CHECK(mqs_jobs_take(jobs, NULL, &job) == 0 && is_data(&job, "one") && job.tries_left == TRIES - 1);
    CHECK(!strncmp(job.name, pool_name, strlen(pool_name)) && strlen(job.name) == strlen(pool_name) + 21);
    CHECK(mqs_jobs_done(jobs, &job) == 0 && mqs_jobs_pending(jobs) == 1);
    CHECK(mqs_jobs_take(jobs, &past, &job) == 0 && is_data(&job, "") && mqs_jobs_give_back(jobs, &job) == 0);
    FAILS(mqs_jobs_done(jobs, &job), EBADF);
    FAILS(mqs_jobs_give_back(jobs, &job), EBADF);
    CHECK(mqs_jobs_take(jobs, &past, &job) == 0 && job.tries_left == TRIES - 2 && mqs_jobs_done(jobs, &job) == 0);
    FAILS(mqs_jobs_done(jobs, &job), EBADF);
    CHECK(mqs_jobs_pending(jobs) == 0);
    FAILS(mqs_jobs_take(jobs, &past, &job), ETIMEDOUT);
    FAILS(mqs_jobs_take(jobs, &odd, &job), EINVAL);
}

/* More than there is room for tokens: no look is due, and yet nobody waits for one. */
static void many_jobs(void)
{
    struct mqs_jobs *pool = mqs_jobs_open(a, pool_name, TRIES, 1000 * BOUND_MS);
    struct mqs_job job;
    struct timespec until, now;
    FAILS(mqs_jobs_take(pool, &past, &job), ETIMEDOUT);
    clock_gettime(CLOCK_REALTIME, &until);
    until.tv_sec += 20;
    for (int i = 0; i < 30; i++) put("many");
    for (int i = 0; i < 30; i++) CHECK(mqs_jobs_take(pool, &until, &job) == 0 && is_data(&job, "many") && mqs_jobs_done(pool, &job) == 0);
    clock_gettime(CLOCK_REALTIME, &now);
    CHECK(now.tv_sec < until.tv_sec);
    mqs_jobs_close(pool);
}

static void refused_puts(void)
{
    static char data[1 << 21];
    struct mqs_jobs *many = mqs_jobs_open(a, pool_name, 70000, LOOK_MS);
    FAILS(mqs_jobs_put(jobs, data, sizeof data), EINVAL);
    FAILS(mqs_jobs_put(many, data, 1), EINVAL);
    mqs_jobs_close(many);
    int r = 0;
    for (int i = 0; i < 200 && r == 0; i++) r = mqs_jobs_put(jobs, data, 8192);
    CHECK(r == -1 && errno == EMFILE);
    CHECK(drain("") > 0 && mqs_jobs_pending(jobs) == 0);
}

static void *put_later(void *arg)
{
    usleep(300000);
    return (void *)(long)mqs_jobs_put(arg, "late", 4);
}

static void nothing(int signal) { (void)signal; }

static void waits(void)
{
    struct mqs_job job;
    struct mqs_jobs *pool = NULL;
    struct itimerval soon = { { 0, 0 }, { 0, 100000 } };
    struct sigaction action = { .sa_handler = nothing };
    struct timespec until;
    struct proxy p;
    pthread_t thread;
    clock_gettime(CLOCK_REALTIME, &until);
    until.tv_sec++;
    FAILS(mqs_jobs_take(jobs, &until, &job), ETIMEDOUT);
    sigaction(SIGALRM, &action, NULL);
    setitimer(ITIMER_REAL, &soon, NULL);
    FAILS(mqs_jobs_take(jobs, NULL, &job), EINTR);
    struct mqs *c = begin(&p, &pool, NEVER, NULL, NULL);
    CHECK(pthread_create(&thread, NULL, put_later, pool) == 0);
    CHECK(mqs_jobs_take(jobs, NULL, &job) == 0 && is_data(&job, "late") && mqs_jobs_done(jobs, &job) == 0);
    pthread_join(thread, NULL);
    finish(&p, c, pool);
}

static int revive_each(const char *name, void *arg)
{
    (void)arg;
    CHECK(mqs_jobs_revive(jobs, name) == 0);
    return 1;
}

static void dead_jobs(void)
{
    struct mqs_job job;
    char name[MQS_JOB_NAME], other[MQS_JOB_NAME];
    void *data;
    make_dead(name);
    CHECK(mode_of(name) == 0400 && mqs_jobs_pending(jobs) == 1 && mqs_jobs_sweep(jobs) == 0);
    CHECK(mqs_jobs_bury(jobs, name, &data) == 4 && !memcmp(data, "dead", 4));
    free(data);
    FAILS(mqs_jobs_bury(jobs, name, &data), ENOENT);
    FAILS(mqs_jobs_revive(jobs, name), ENOENT);
    FAILS(mqs_jobs_bury(jobs, pool_name, &data), ENOENT);
    make_dead(name);
    struct mqs_jobs *many = mqs_jobs_open(a, pool_name, 70000, LOOK_MS);
    for (int i = 0; i < 3; i++) FAILS(mqs_jobs_revive(many, name), EINVAL);
    mqs_jobs_close(many);
    CHECK(mqs_jobs_dead(jobs, revive_each, NULL) == 1 && mqs_jobs_dead(jobs, remember, other) == 0);
    CHECK(mqs_jobs_take(jobs, &past, &job) == 0 && is_data(&job, "dead") && job.tries_left == TRIES - 1);
    FAILS(mqs_jobs_bury(jobs, job.name, &data), ENOENT);
    FAILS(mqs_jobs_revive(jobs, job.name), ENOENT);
    CHECK(mqs_jobs_done(jobs, &job) == 0 && mqs_jobs_pending(jobs) == 0);
}

static void lost_connections(void)
{
    struct mqs_jobs *pool = NULL;
    struct mqs_job job, again;
    struct proxy p;
    put("lost");
    struct mqs *c = begin(&p, &pool, NEVER, NULL, NULL);
    CHECK(mqs_jobs_take(pool, &past, &job) == 0);
    FAILS(mqs_jobs_take(jobs, &past, &again), ETIMEDOUT);
    p.stop = p.seen;
    FAILS(mqs_jobs_done(pool, &job), ECONNRESET);
    FAILS(mqs_jobs_give_back(pool, &job), ECONNRESET);
    FAILS(mqs_jobs_put(pool, "x", 1), ECONNRESET);
    FAILS(mqs_jobs_pending(pool), ECONNRESET);
    FAILS(mqs_jobs_sweep(pool), ECONNRESET);
    FAILS(mqs_jobs_dead(pool, remember, job.name), ECONNRESET);
    CHECK(job.data == NULL && mqs_jobs_take(jobs, &past, &again) == 0 && is_data(&again, "lost") && again.tries_left == TRIES - 2);
    CHECK(mqs_jobs_done(jobs, &again) == 0);
    finish(&p, c, pool);
}

/* ---- A session that ends before each request, or stops there ---- */

enum kind { PUT, TAKE, DONE, GIVE_BACK, BURY, REVIVE, SWEEP, DEAD, KINDS };
static const char *const kinds[KINDS] = { "put", "take", "done", "give back", "bury", "revive", "sweep", "dead" };

/* What the pool has before the call, and the call of a session that stops before request `stop`. */
static void prepare(enum kind kind, char *name)
{
    struct mqs_jobs *pool;
    struct proxy p;
    if (kind == BURY || kind == REVIVE) make_dead(name);
    else if (kind == SWEEP) {
        struct mqs *c = begin(&p, &pool, 5, NULL, NULL);
        FAILS(mqs_jobs_put(pool, "dead", 4), ECONNRESET);
        finish(&p, c, pool);
    } else if (kind != PUT) put("dead");
}

static int make_call(enum kind kind, struct mqs_jobs *pool, const char *name, struct mqs_job *job)
{
    char told[MQS_JOB_NAME];
    void *data = NULL;
    int r;
    switch (kind) {
    case PUT: return mqs_jobs_put(pool, "dead", 4);
    case TAKE: return mqs_jobs_take(pool, &past, job);
    case DONE: return mqs_jobs_done(pool, job);
    case GIVE_BACK: return mqs_jobs_give_back(pool, job);
    case REVIVE: return mqs_jobs_revive(pool, name);
    case SWEEP: return mqs_jobs_sweep(pool) < 0 ? -1 : 0;
    case DEAD: return mqs_jobs_dead(pool, remember, told);
    default:
        r = (int)mqs_jobs_bury(pool, name, &data);
        free(data);
        return r < 0 ? -1 : 0;
    }
}

/* Makes the call by a session that stops before a request. Whether it stopped; *r is what the call returned. */
static int call_until(enum kind kind, int stop, void (*at_stop)(void *), void *arg, int *r)
{
    struct mqs_jobs *pool = NULL;
    struct mqs_job job = { .data = NULL };
    struct proxy p;
    char name[MQS_JOB_NAME] = "";
    if (!at_stop) prepare(kind, name);
    struct mqs *c = begin(&p, &pool, NEVER, at_stop, arg);
    if (kind == DONE || kind == GIVE_BACK) CHECK(mqs_jobs_take(pool, &past, &job) == 0);
    p.seen = 0;
    p.stop = stop;
    *r = make_call(kind, pool, name, &job);
    free(job.data);
    finish(&p, c, pool);
    return p.has_stopped;
}

/* Each call is cut off before each of its requests. No job is lost, and what is left can be had. */
static void cuts(enum kind kind)
{
    int is_kept = kind == PUT || kind == TAKE || kind == GIVE_BACK || kind == REVIVE || kind == DEAD;
    int stop = 0, was_cut = 1, r, seen[3] = { 0, 0, 0 };
    for (; was_cut; stop++) {
        was_cut = call_until(kind, stop, NULL, NULL, &r);
        int count = drain("dead");
        CHECK(count <= 2 && (r == 0 || was_cut));
        CHECK(r < 0 || count == is_kept);
        if (count > 2) printf("%s, cut before request %d: %d\n", kinds[kind], stop, count);
        else seen[count]++;
    }
    CHECK(stop > 2);
    CHECK((seen[0] > 0) == (kind == PUT || !is_kept));
    CHECK((seen[2] > 0) == (kind == REVIVE));
}

/* What the other session, `jobs`, does meanwhile. */
struct other { enum kind kind; struct mqs_job job; int r; };

static void act(void *arg)
{
    struct other *other = arg;
    other->r = other->kind == SWEEP ? mqs_jobs_sweep(jobs) : make_call(other->kind, jobs, "", &other->job);
}

/* A sweep before each request of a put: the job is there once the put has returned. */
static void sweeps_of_puts(void)
{
    int r, has_stopped = 1;
    unsigned swept = 0;
    for (int stop = 0; has_stopped; stop++) {
        struct other other = { .kind = SWEEP };
        has_stopped = call_until(PUT, stop, act, &other, &r);
        swept |= (unsigned)other.r << stop;
        CHECK(r == 0 && drain("dead") == 1);
    }
    CHECK(swept == 5u << 1);    /* before each of the two registrations, which come before and behind the first send */
}

/* A putter's last step before each request of a sweep, up to the look at the mode behind its claim: it keeps the job. Later ones a
 * putter can't make, since it isn't registered then. */
static void publish(void *arg)
{
    struct other *other = arg;
    other->r = mqs_chmod(a, MQS_QUEUES, other->job.name, 0600);
}

static void puts_beside_sweeps(void)
{
    struct mqs_attributes given = { TRIES + 2, 4 };
    enum { LIST, STAT, OPEN, NOTIFY, STAT_AGAIN };
    int r;
    for (int stop = LIST; stop <= STAT_AGAIN; stop++) {
        struct other other = { .r = -1 };
        uint64_t queue;
        snprintf(other.job.name, sizeof other.job.name, "%s.job-0123456789abcdef", pool_name);
        CHECK(mqs_mq_open(a, other.job.name, MQS_WRITE, MQS_CREATE | MQS_EXCLUSIVE, 0200, &given, &queue) == 0);
        for (int i = 0; i < TRIES + 2; i++) CHECK(mqs_mq_send(a, queue, "dead", 4, 0, NULL) == 0);
        CHECK(mqs_mq_close(a, queue) == 0);
        CHECK(call_until(SWEEP, stop, publish, &other, &r) && r == 0 && other.r == 0 && drain("dead") == 1);
    }
}

/* A take before each request of a done finds nothing. */
static void takes_beside_done(void)
{
    int r, has_stopped = 1, stop = 0;
    for (; has_stopped; stop++) {
        struct other other = { .kind = TAKE, .r = -1 };
        put("over");
        has_stopped = call_until(DONE, stop, act, &other, &r);
        CHECK(r == 0 && other.r == -1 && drain("") == 0);
    }
    CHECK(stop > 2);
}

/* A take before each request of a look for dead jobs finds one that is free. */
static void takes_beside_dead(void)
{
    int r, has_stopped = 1, stop = 0;
    for (; has_stopped; stop++) {
        struct other other = { .kind = TAKE, .r = -1 };
        put("free");
        has_stopped = call_until(DEAD, stop, act, &other, &r);
        CHECK(r == 0 && (!has_stopped || (other.r == 0 && mqs_jobs_done(jobs, &other.job) == 0)));
        CHECK(drain("free") == !has_stopped);
    }
    CHECK(stop > 3);
}

/* A job is ended before each request of a take: who opened its queue before sees that it is over. */
static void takes_of_ended_jobs(void)
{
    int r = 0, has_stopped = 1, stop = 0;
    for (; has_stopped; stop++) {
        struct other other = { .kind = DONE };
        put("over");
        CHECK(mqs_jobs_take(jobs, &past, &other.job) == 0);
        has_stopped = call_until(TAKE, stop, act, &other, &r);
        CHECK(r == -1);
        if (!has_stopped) mqs_jobs_done(jobs, &other.job);
        CHECK(other.job.data == NULL && drain("") == 0);
    }
    CHECK(stop > 4);
}

/* ---- All ---- */

static void remove_pool(void)
{
    mqs_jobs_close(jobs);
    mqs_mq_unlink(a, pool_name);
    mqs_disconnect(a);
}

int main(void)
{
    address = getenv("MQSERVE");
    key = getenv("MQSERVE_KEY");
    other_key = !strcmp(key, "kb1") ? "ka1" : "kb1";
    snprintf(pool_name, sizeof pool_name, "/jobs-c-%d", (int)getpid());
    setvbuf(stdout, NULL, _IOLBF, 0);
    a = mqs_connect(address, key, BOUND_MS);
    must(a && (jobs = mqs_jobs_open(a, pool_name, TRIES, LOOK_MS)), "open");
    pools();
    puts_and_takes();
    many_jobs();
    refused_puts();
    waits();
    dead_jobs();
    lost_connections();
    for (int kind = 0; kind < KINDS; kind++) cuts((enum kind)kind);
    sweeps_of_puts();
    puts_beside_sweeps();
    takes_beside_done();
    takes_beside_dead();
    takes_of_ended_jobs();
    remove_pool();
    printf("jobs: %d checks, %d failed\n", checks, faults);
    return faults != 0;
}
