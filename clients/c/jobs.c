/* jobs.c: jobs that come again, over the calls of mqserve.h alone. The protocol is that of python/mqserve/jobs.py; what of it
 * keeps a job from being lost is said in docs/dev/clients.md.
 *
 * A job's queue has a mode: PUTTING, that nobody can take it yet; READY, that it is a job; DEAD, that its tries are used up. Workers want
 * both rights, so they can open it where it is READY alone. Its registration is the lock: whoever publishes, takes, removes or
 * marks it has it. */
#include "mqserve_jobs.h"

#include <errno.h>
#include <stdio.h>
#include <stdlib.h>
#include <string.h>
#include <sys/random.h>

enum mode { PUTTING = 0200, READY = 0600, DEAD = 0400 };

enum rule { ABSENT = 13, PRESENT = 14, MODE_DENIED = 15, MESSAGE_LONG = 26, NOTIFY_TAKEN = 28, WOULD_BLOCK = 29 };

enum {
    SPARE = 2,              /* copies that workers leave: one for revive, and one that stays meanwhile */
    DIGITS = 16,
    PAGE_NAMES = 1000,
};

static const char infix[] = ".job-";
static const uint64_t over = UINT64_MAX;    /* in place of a job's description */

/* Names of jobs, each with a zero byte behind it, in one block. */
struct names { const struct mqs_jobs *pool; char *at; size_t count, capacity; int has_no_memory; };

struct mqs_jobs {
    struct mqs *c;
    uint64_t queue, waiter;         /* the pool's queue, with NONBLOCK and without */
    uint32_t owner;
    unsigned tries, look_ms;
    char *token;
    size_t token_size;              /* the room for one */
    struct names found;             /* candidates of the last look */
    size_t next;                    /* of these */
    int64_t look_at;
    int has_more;
    size_t prefix_size;             /* of a job's name */
    char name[MQS_JOB_NAME];        /* the prefix, and digits */
};

/* A job's queue that this session has open, and whose registration it has. */
struct held { uint64_t queue; uint32_t copies, size; };

static int fail(int error)
{
    errno = error;
    return -1;
}

static int is_refused(const struct mqs_jobs *pool, enum rule one, enum rule other)
{
    int rule = mqs_rule(pool->c);
    return rule == (int)one || rule == (int)other;
}

/* These two leave errno as it is. */

static void let_go(struct mqs_jobs *pool, uint64_t queue)
{
    int error = errno;
    mqs_mq_close(pool->c, queue);
    errno = error;
}

static void drop(void *data)
{
    int error = errno;
    free(data);
    errno = error;
}

static int64_t now_ms(void)
{
    struct timespec t;
    clock_gettime(CLOCK_MONOTONIC, &t);
    return t.tv_sec * INT64_C(1000) + t.tv_nsec / 1000000;
}

static int draw(uint64_t *number)
{
    ssize_t size;
    do size = getrandom(number, sizeof *number, 0);
    while (size < 0 && errno == EINTR);
    return size == (ssize_t)sizeof *number ? 0 : -1;
}

/* ---- Calls that don't block, within the connection's bound ---- */

static int send_now(struct mqs_jobs *pool, uint64_t queue, const void *data, size_t size)
{
    if (mqs_start_send(pool->c, queue, data, size, 0) < 0 || mqs_wait_bound(pool->c) < 0) return -1;
    return mqs_finish(pool->c);
}

static ssize_t receive_now(struct mqs_jobs *pool, uint64_t queue, void *data, size_t size)
{
    if (mqs_start_receive(pool->c, queue, size) < 0 || mqs_wait_bound(pool->c) < 0) return -1;
    return mqs_finish_receive(pool->c, data, size, NULL);
}

/* Removes a name, which may be gone. */
static int unlink_name(struct mqs_jobs *pool, const char *name)
{
    return mqs_mq_unlink(pool->c, name) < 0 && mqs_rule(pool->c) != ABSENT ? -1 : 0;
}

/* Wakes a worker. Where the pool's queue is full none waits. */
static int wake(struct mqs_jobs *pool, const char *name)
{
    int r = send_now(pool, pool->queue, name, pool->prefix_size + DIGITS);
    return r < 0 && !is_refused(pool, WOULD_BLOCK, MESSAGE_LONG) ? -1 : 0;
}

/* ---- Names ---- */

static int is_job(const struct mqs_jobs *pool, const char *name, size_t size)
{
    if (size != pool->prefix_size + DIGITS || memcmp(name, pool->name, pool->prefix_size) != 0) return 0;
    for (size_t i = pool->prefix_size; i < size; i++)
        if (!memchr("0123456789abcdef", name[i], 16)) return 0;
    return 1;
}

static const char *name_at(const struct names *names, size_t i)
{
    return names->at + i * (names->pool->prefix_size + DIGITS + 1);
}

static int keep_name(const char *name, size_t size, void *arg)
{
    struct names *names = arg;
    if (!is_job(names->pool, name, size)) return 0;
    if (names->count == names->capacity) {
        size_t capacity = names->capacity ? 2 * names->capacity : 64;
        char *grown = realloc(names->at, capacity * (size + 1));
        if (!grown) return names->has_no_memory = 1;
        names->at = grown;
        names->capacity = capacity;
    }
    char *at = names->at + names->count++ * (size + 1);
    memcpy(at, name, size);
    at[size] = 0;
    return 0;
}

/* The names of all jobs, the oldest first. Some may be left out where others end meanwhile. */
static int list_names(struct mqs_jobs *pool, struct names *names)
{
    int page;
    names->pool = pool;
    names->count = 0;
    names->has_no_memory = 0;
    for (uint32_t start = 0; ; start += (uint32_t)page) {
        page = mqs_list(pool->c, MQS_QUEUES, start, keep_name, names);
        if (page < 0) return -1;
        if (names->has_no_memory) return fail(ENOMEM);
        if (page < PAGE_NAMES) return 0;
    }
}

/* ---- Claims ---- */

/* Opens a job's queue and registers for its notice, which is the claim: 1. 0: somebody else has it, or it is in neither of these modes,
 * another user's, or gone; or it has more copies than `most`, which is seen before: a worker finds it free meanwhile. */
static int hold(struct mqs_jobs *pool, const char *name, int access, enum mode one, enum mode other, uint32_t most, struct held *held)
{
    struct mqs_facts facts;
    struct mqs_state state = { .messages_now = 0 };
    if (!is_job(pool, name, strlen(name))) return 0;
    if (mqs_mq_open(pool->c, name, access, MQS_NONBLOCK, 0, NULL, &held->queue) < 0)
        return is_refused(pool, ABSENT, MODE_DENIED) ? 0 : -1;
    int r = most < UINT32_MAX ? mqs_mq_getattr(pool->c, held->queue, &state) : 0;
    if (r < 0 || state.messages_now > most) {
        let_go(pool, held->queue);
        return r;
    }
    r = mqs_mq_notify(pool->c, held->queue, 1);
    if (r == 0) r = mqs_stat(pool->c, MQS_QUEUES, name, &facts);    /* behind the registration: nobody else changes it from here on */
    int is_ours = r == 0 && (facts.owner == pool->owner || facts.owner == 0) && (facts.mode == one || facts.mode == other);
    if (is_ours && (r = mqs_mq_getattr(pool->c, held->queue, &state)) == 0) {
        held->copies = state.messages_now;
        held->size = state.message_size;
        return 1;
    }
    if (r < 0 && is_refused(pool, ABSENT, NOTIFY_TAKEN)) r = 0;
    let_go(pool, held->queue);
    return r;
}

/* Receives a copy; with a name it ends the job before. It takes the memory first, so that want of it loses nothing. */
static ssize_t receive_copy(struct mqs_jobs *pool, const struct held *held, const char *name, void **data)
{
    *data = malloc((size_t)held->size + 1);
    ssize_t size = !*data || (name && unlink_name(pool, name) < 0) ? -1 : receive_now(pool, held->queue, *data, held->size);
    if (size >= 0) return size;
    drop(*data);
    *data = NULL;
    return -1;
}

/* 1: it was taken. 0: it isn't free. */
static int claim(struct mqs_jobs *pool, const char *name, struct mqs_job *job)
{
    struct held held;
    int r = hold(pool, name, MQS_BOTH, READY, READY, UINT32_MAX, &held);
    if (r <= 0) return r;
    if (held.copies <= SPARE) {
        r = mqs_chmod(pool->c, MQS_QUEUES, name, DEAD);             /* no worker opens it again */
        let_go(pool, held.queue);
        return r;
    }
    ssize_t size = receive_copy(pool, &held, NULL, &job->data);
    if (size < 0) {
        let_go(pool, held.queue);
        return -1;
    }
    snprintf(job->name, sizeof job->name, "%s", name);
    job->size = (size_t)size;
    job->queue = held.queue;
    job->tries_left = held.copies - 1 - SPARE;
    return 1;
}

/* ---- The pool ---- */

static int open_pool(struct mqs_jobs *pool, const char *name)
{
    struct mqs_attributes given = { pool->tries + SPARE, (uint32_t)pool->prefix_size + DIGITS };
    struct mqs_facts facts;
    struct mqs_state state;
    if (mqs_mq_open(pool->c, name, MQS_BOTH, MQS_CREATE | MQS_NONBLOCK, READY, &given, &pool->queue) < 0) return -1;
    int r = mqs_chown(pool->c, MQS_QUEUES, name, -1, -1);           /* changes nothing, and only the owner and user 0 may */
    if (r == 0) r = mqs_stat(pool->c, MQS_QUEUES, name, &facts);
    if (r == 0) r = mqs_mq_getattr(pool->c, pool->queue, &state);
    if (r == 0) r = mqs_mq_open(pool->c, name, MQS_READ, 0, 0, NULL, &pool->waiter);
    if (r == 0) {
        pool->owner = facts.owner;
        pool->token_size = state.message_size;
        pool->token = malloc(pool->token_size + 1);
        if (pool->token) return 0;
        let_go(pool, pool->waiter);
        errno = ENOMEM;
    }
    let_go(pool, pool->queue);
    return -1;
}

struct mqs_jobs *mqs_jobs_open(struct mqs *c, const char *name, unsigned tries, unsigned look_ms)
{
    size_t size = strlen(name), longest = MQS_JOB_NAME - 1 - DIGITS - strlen(infix);
    if (tries == 0 || tries > INT32_MAX || look_ms == 0 || size > longest) {
        errno = size > longest ? ENAMETOOLONG : EINVAL;
        return NULL;
    }
    struct mqs_jobs *pool = calloc(1, sizeof *pool);
    if (!pool) return NULL;
    mqs_set_reconnect(c, 0);    /* claims end with the session, and have to be seen to */
    pool->c = c;
    pool->tries = tries;
    pool->look_ms = look_ms;
    pool->prefix_size = size + strlen(infix);
    snprintf(pool->name, sizeof pool->name, "%s%s", name, infix);
    if (open_pool(pool, name) == 0) return pool;
    drop(pool);
    return NULL;
}

void mqs_jobs_close(struct mqs_jobs *pool)
{
    if (!pool) return;
    let_go(pool, pool->queue);
    let_go(pool, pool->waiter);
    free(pool->token);
    free(pool->found.at);
    free(pool);
}

/* ---- Putting ---- */

/* Whether the job is there now: 1, or 0 where somebody has swept the queue. The registration keeps sweeps off. A message to the empty
 * queue ends it, so it is had once more; without the first one a sweep's own could end so, and the sweep wouldn't know. */
static int fill(struct mqs_jobs *pool, uint64_t queue, const void *data, size_t size)
{
    int r = mqs_mq_notify(pool->c, queue, 1);
    if (r == 0) r = send_now(pool, queue, data, size);
    if (r == 0) r = mqs_mq_notify(pool->c, queue, 1);
    for (unsigned copy = 1; r == 0 && copy < pool->tries + SPARE; copy++) r = send_now(pool, queue, data, size);
    if (r == 0) r = mqs_chown(pool->c, MQS_QUEUES, pool->name, pool->owner, -1);    /* changes something where user 0 puts */
    if (r == 0) r = mqs_chmod(pool->c, MQS_QUEUES, pool->name, READY);              /* from here on the job is there */
    if (r == 0) return 1;
    return is_refused(pool, ABSENT, NOTIFY_TAKEN) || mqs_rule(pool->c) == WOULD_BLOCK ? 0 : -1;
}

/* A queue that no worker can open yet, whose name is the pool's `name` for now. A name is never used again. */
static int create(struct mqs_jobs *pool, uint32_t size, uint64_t *queue)
{
    struct mqs_attributes given = { pool->tries + SPARE, size };
    uint64_t number;
    while (draw(&number) == 0) {
        snprintf(pool->name + pool->prefix_size, DIGITS + 1, "%016llx", (unsigned long long)number);
        if (mqs_mq_open(pool->c, pool->name, MQS_WRITE, MQS_CREATE | MQS_EXCLUSIVE | MQS_NONBLOCK, PUTTING, &given, queue) == 0) return 0;
        if (mqs_rule(pool->c) != PRESENT) return -1;
    }
    return -1;
}

/* Leaves errno as it is. */
static void remove_queue(struct mqs_jobs *pool)
{
    int error = errno;
    unlink_name(pool, pool->name);
    errno = error;
}

/* Puts data, or a copy of a dead job, which is received once a queue for it is there. */
static int add(struct mqs_jobs *pool, uint32_t room, const void *data, size_t size, const struct held *dead)
{
    void *copy = NULL;
    ssize_t copied = 0;
    int r = 0;
    while (r == 0) {
        uint64_t queue;
        r = create(pool, room, &queue);
        if (r < 0) break;
        if (dead && !copy) copied = receive_copy(pool, dead, NULL, &copy);
        if (copied >= 0) r = dead ? fill(pool, queue, copy, (size_t)copied) : fill(pool, queue, data, size);
        else r = -1;
        if (r <= 0) remove_queue(pool);
        let_go(pool, queue);
    }
    drop(copy);
    return r < 0 ? -1 : wake(pool, pool->name);     /* now that it may be claimed */
}

int mqs_jobs_put(struct mqs_jobs *pool, const void *data, size_t size)
{
    if (size > UINT32_MAX) return fail(EMSGSIZE);
    return add(pool, size ? (uint32_t)size : 1, data, size, NULL);
}

/* ---- Taking ---- */

/* The next candidate of the last look, or else a token that is there. NULL: none, or the call failed with *r -1. */
static const char *next_candidate(struct mqs_jobs *pool, int *r)
{
    *r = 0;
    if (pool->next < pool->found.count) return name_at(&pool->found, pool->next++);
    ssize_t size = receive_now(pool, pool->queue, pool->token, pool->token_size);
    if (size < 0) {
        *r = mqs_rule(pool->c) == WOULD_BLOCK ? 0 : -1;
        return NULL;
    }
    pool->token[size] = 0;
    return pool->token;
}

/* Goes on with any candidate: where one was taken, other workers are at the next ones too. */
static void skip(struct mqs_jobs *pool)
{
    struct names *found = &pool->found;
    char other[MQS_JOB_NAME];
    uint64_t number;
    size_t stride = pool->prefix_size + DIGITS + 1, left = found->count - pool->next;
    if (left < 2 || draw(&number) < 0) return;
    char *next = found->at + pool->next * stride, *at = next + number % left * stride;
    memcpy(other, next, stride);
    memmove(next, at, stride);
    memcpy(at, other, stride);
}

static int look(struct mqs_jobs *pool)
{
    pool->next = 0;
    pool->has_more = 0;
    pool->look_at = now_ms() + pool->look_ms;
    if (list_names(pool, &pool->found) == 0) return 0;
    pool->found.count = 0;
    return -1;
}

/* A job that is there. A look through all names is due after some time, since some jobs have no token; and once tokens are used up that
 * were there before this worker was: the pool's queue may have had no room for more. */
static int take_free(struct mqs_jobs *pool, int must_look, struct mqs_job *job)
{
    for (int has_looked = 0;;) {
        int is_due = !has_looked && now_ms() >= pool->look_at, r = 0;
        const char *name = is_due ? NULL : next_candidate(pool, &r);
        if (r < 0) return -1;
        if (name) {
            r = claim(pool, name, job);
            if (r > 0) pool->has_more = 1;
            if (r != 0) return r;
            skip(pool);
        } else if (is_due || (!has_looked && (pool->has_more || must_look))) {
            if (look(pool) < 0) return -1;
            has_looked = 1;
        } else {
            return 0;
        }
    }
}

static int is_before(const struct timespec *a, const struct timespec *b)
{
    return a->tv_sec < b->tv_sec || (a->tv_sec == b->tv_sec && a->tv_nsec < b->tv_nsec);
}

/* The job of the next token that comes before the moment and before a look is due. */
static int take_next(struct mqs_jobs *pool, const struct timespec *until, struct mqs_job *job)
{
    struct timespec end;
    int64_t left = pool->look_at - now_ms();
    clock_gettime(CLOCK_REALTIME, &end);
    if (left > 0) {
        end.tv_sec += left / 1000;
        end.tv_nsec += left % 1000 * 1000000;
        end.tv_sec += end.tv_nsec / 1000000000;
        end.tv_nsec %= 1000000000;
    }
    if (until && is_before(until, &end)) end = *until;
    ssize_t size = mqs_mq_receive(pool->c, pool->waiter, pool->token, pool->token_size, NULL, &end);
    if (size < 0) return errno == ETIMEDOUT ? 0 : -1;
    pool->token[size] = 0;
    return claim(pool, pool->token, job);
}

int mqs_jobs_take(struct mqs_jobs *pool, const struct timespec *until, struct mqs_job *job)
{
    if (until && (until->tv_nsec < 0 || until->tv_nsec >= 1000000000)) return fail(EINVAL);
    for (;;) {
        struct timespec now;
        clock_gettime(CLOCK_REALTIME, &now);
        int is_last = until && !is_before(&now, until);
        int r = take_free(pool, is_last, job);
        if (r == 0 && is_last) return fail(ETIMEDOUT);
        if (r == 0) r = take_next(pool, until, job);
        if (r != 0) return r < 0 ? -1 : 0;
    }
}

static int end_job(struct mqs_jobs *pool, struct mqs_job *job)
{
    uint64_t queue = job->queue;
    free(job->data);
    job->data = NULL;
    job->queue = over;
    return mqs_mq_close(pool->c, queue);
}

int mqs_jobs_done(struct mqs_jobs *pool, struct mqs_job *job)
{
    if (job->queue == over) return fail(EBADF);         /* others may have it */
    if (unlink_name(pool, job->name) < 0) return -1;    /* before the claim ends, so that who claims it next sees that it is over */
    end_job(pool, job);
    return 0;
}

int mqs_jobs_give_back(struct mqs_jobs *pool, struct mqs_job *job)
{
    if (job->queue == over) return fail(EBADF);
    return end_job(pool, job) < 0 ? -1 : wake(pool, job->name);
}

/* ---- Dead jobs, and what was left behind ---- */

int mqs_jobs_pending(struct mqs_jobs *pool)
{
    struct names names = { 0 };
    int r = list_names(pool, &names);
    drop(names.at);
    return r < 0 ? -1 : (int)names.count;
}

/* Claims a dead job. */
static int hold_dead(struct mqs_jobs *pool, const char *name, struct held *held)
{
    int r = hold(pool, name, MQS_READ, READY, DEAD, SPARE, held);
    if (r <= 0 || held->copies <= SPARE) return r;      /* more: user 0 saw it while it was being put */
    let_go(pool, held->queue);
    return 0;
}

int mqs_jobs_dead(struct mqs_jobs *pool, int (*each)(const char *name, void *arg), void *arg)
{
    struct names names = { 0 };
    int count = 0, r = list_names(pool, &names);
    for (size_t i = 0; r >= 0 && i < names.count; i++) {
        struct held held;
        r = hold_dead(pool, name_at(&names, i), &held);
        if (r <= 0) continue;
        let_go(pool, held.queue);
        count++;
        if (each(name_at(&names, i), arg)) break;
    }
    drop(names.at);
    return r < 0 ? -1 : count;
}

ssize_t mqs_jobs_bury(struct mqs_jobs *pool, const char *name, void **data)
{
    struct held held;
    int r = hold_dead(pool, name, &held);
    if (r <= 0) return r < 0 ? -1 : fail(ENOENT);
    ssize_t size = receive_copy(pool, &held, name, data);
    let_go(pool, held.queue);
    return size;
}

int mqs_jobs_revive(struct mqs_jobs *pool, const char *name)
{
    struct held held;
    int r = hold_dead(pool, name, &held);
    if (r <= 0) return r < 0 ? -1 : fail(ENOENT);
    r = held.copies < SPARE ? fail(ENODATA) : add(pool, held.size, NULL, 0, &held);
    if (r == 0) r = unlink_name(pool, name);
    let_go(pool, held.queue);
    return r;
}

static int sweep(struct mqs_jobs *pool, const char *name)
{
    struct mqs_facts facts;
    struct held held;
    if (mqs_stat(pool->c, MQS_QUEUES, name, &facts) < 0) return mqs_rule(pool->c) == ABSENT ? 0 : -1;
    int r = facts.mode == PUTTING ? hold(pool, name, MQS_WRITE, PUTTING, PUTTING, UINT32_MAX, &held) : 0;
    if (r <= 0) return r;
    r = unlink_name(pool, name);                        /* its putter isn't registered, and can't be any more */
    let_go(pool, held.queue);
    return r < 0 ? -1 : 1;
}

int mqs_jobs_sweep(struct mqs_jobs *pool)
{
    struct names names = { 0 };
    int count = 0, r = list_names(pool, &names);
    for (size_t i = 0; r >= 0 && i < names.count; i++) {
        r = sweep(pool, name_at(&names, i));
        count += r > 0;
    }
    drop(names.at);
    return r < 0 ? -1 : count;
}
