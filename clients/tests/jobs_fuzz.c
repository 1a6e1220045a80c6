/* jobs_fuzz.c COUNT [SEED]: answers that a lying server could give to the calls of mqserve_jobs.h, under sanitizers. A stream has the
 * answers that its calls hope for, others between them, values that they can't have and changed bits, and then it ends. Each call must end,
 * with a result that it can have. The last line says how many streams ran, and what was found. */
#include "../c/connection.h"
#include "../c/mqserve_jobs.h"

#include <errno.h>
#include <stdio.h>
#include <stdlib.h>
#include <string.h>
#include <sys/socket.h>
#include <unistd.h>

enum { STREAM = 16384, CALLS = 6, BOUND_MS = 1000, JOBS = 8, TRIES = 1 };

enum kind { PUT_ONE, TAKE, TAKE_ALL, TELL_DEAD, BURY, REVIVE, SWEEP, COUNT, KINDS };

static uint64_t state;
static long findings, worked[KINDS], failed[KINDS], opened;
static enum kind hoped;         /* the call whose answers are put */

/* splitmix64 */
static uint64_t draw(void)
{
    uint64_t z = state += UINT64_C(0x9e3779b97f4a7c15);
    z = (z ^ z >> 30) * UINT64_C(0xbf58476d1ce4e5b9);
    z = (z ^ z >> 27) * UINT64_C(0x94d049bb133111eb);
    return z ^ z >> 31;
}

static size_t below(size_t limit) { return (size_t)(draw() % limit); }

/* ---- Streams ---- */

struct stream { uint8_t bytes[STREAM]; size_t size; };

static void put(struct stream *s, uint64_t value, int bytes)
{
    while (bytes-- > 0 && s->size < STREAM) s->bytes[s->size++] = (uint8_t)(value >> (8 * bytes));
}

static void put_head(struct stream *s, size_t fields, int op)
{
    put(s, fields + 1, 4);
    put(s, (uint64_t)op, 1);
}

/* A job's name, at times with another ending or longer. */
static size_t draw_name(char *name, size_t room)
{
    int size = snprintf(name, room, "/p.job-%016llx", (unsigned long long)below(JOBS));
    if (below(30) == 0) name[below((size_t)size)] = (char)draw();
    if (below(30) == 0) size += snprintf(name + size, room - (size_t)size, "0");
    return (size_t)size;
}

static void put_bytes(struct stream *s, const void *bytes, size_t size)
{
    for (size_t i = 0; i < size; i++) put(s, ((const uint8_t *)bytes)[i], 1);
}

static void put_names(struct stream *s)
{
    char names[JOBS][64];
    size_t count = below(16) ? 1 : below(JOBS), sizes[JOBS], all = 2;
    for (size_t i = 0; i < count; i++) all += 2 + (sizes[i] = draw_name(names[i], sizeof names[i]));
    put_head(s, all, NAMES);
    put(s, count, 2);
    for (size_t i = 0; i < count; i++) {
        put(s, sizes[i], 2);
        put_bytes(s, names[i], sizes[i]);
    }
}

static void put_received(struct stream *s)
{
    char data[64];
    size_t size = draw_name(data, sizeof data);
    memset(data + size, 'x', sizeof data - size);
    if (below(3) == 0) size = below(2) ? sizeof data : below(30);
    put_head(s, 4 + size, RECEIVED);
    put(s, below(4), 4);
    put_bytes(s, data, size);
}

static void put_state(struct stream *s)
{
    static const uint32_t sizes[] = { 0, 1, 24, 24, 64, 65536 };
    int is_dead = hoped == TELL_DEAD || hoped == BURY || hoped == REVIVE;
    put_head(s, 13, ATTRS);
    put(s, 1, 1);
    put(s, TRIES + 2, 4);
    put(s, below(16) ? 64 : sizes[below(6)], 4);
    put(s, below(16) == 0 ? below(7) : is_dead ? 2 : 3, 4);
}

static void put_facts(struct stream *s)
{
    static const uint16_t modes[] = { 0200, 0600, 0400, 0666, 0 };
    put_head(s, 10, STAT);
    put(s, below(30) == 0, 4);
    put(s, 0, 4);
    put(s, below(16) == 0 ? modes[below(5)] : hoped == SWEEP ? 0200 : 0600, 2);
}

static void put_answer(struct stream *s, int op)
{
    static const uint16_t rules[] = { 13, 14, 15, 28, 29, 29, 2, 33 };
    switch (op) {
    case DONE: case SENT: case INTERRUPTED: put_head(s, 0, op); break;
    case OPENED: case NOTICE: case TAKEN: case STARTED: put_head(s, 8, op); put(s, below(9), 8); break;
    case ATTRS: put_state(s); break;
    case STAT: put_facts(s); break;
    case NAMES: put_names(s); break;
    case RECEIVED: put_received(s); break;
    default: put_head(s, 2, REFUSED); put(s, rules[below(8)], 2);
    }
}

/* Answers in the order in which a call hopes for them, some in the place of others. */
static void put_answers(struct stream *s, const int *ops, size_t count)
{
    static const int all[] = { DONE, SENT, INTERRUPTED, OPENED, NOTICE, TAKEN, ATTRS, STAT, NAMES, RECEIVED, REFUSED };
    for (size_t i = 0; i < count; i++) put_answer(s, below(60) == 0 ? all[below(11)] : ops[i]);
}

#define ANSWERS(s, ...) put_answers(s, (const int[]){ __VA_ARGS__ }, sizeof((const int[]){ __VA_ARGS__ }) / sizeof(int))

static void put_call(struct stream *s)
{
    switch (hoped) {
    case PUT_ONE: ANSWERS(s, OPENED, DONE, SENT, NOTICE, DONE, SENT, SENT, DONE, DONE, DONE, SENT); break;
    case TAKE: ANSWERS(s, RECEIVED, OPENED, DONE, STAT, ATTRS, RECEIVED, DONE, DONE); break;
    case TAKE_ALL: ANSWERS(s, NAMES, OPENED, DONE, STAT, ATTRS, RECEIVED, DONE, SENT); break;
    case TELL_DEAD: ANSWERS(s, NAMES, OPENED, ATTRS, DONE, STAT, ATTRS, DONE); break;
    case BURY: ANSWERS(s, OPENED, ATTRS, DONE, STAT, ATTRS, DONE, RECEIVED, DONE); break;
    case REVIVE:
        ANSWERS(s, OPENED, ATTRS, DONE, STAT, ATTRS, OPENED, RECEIVED, DONE, SENT, DONE, SENT, SENT, DONE, DONE, DONE, SENT, DONE, DONE);
        break;
    case SWEEP: ANSWERS(s, NAMES, STAT, OPENED, DONE, STAT, ATTRS, DONE, DONE); break;
    default: ANSWERS(s, NAMES);
    }
}

/* ---- Calls ---- */

static int each_name(const char *name, void *arg)
{
    *(size_t *)arg += strlen(name);
    return below(9) == 0;
}

static int take(struct mqs_jobs *jobs, int is_done)
{
    static const struct timespec past = { 0, 0 };
    struct mqs_job job;
    if (mqs_jobs_take(jobs, &past, &job) < 0) return -1;
    size_t sum = strlen(job.name);
    for (size_t i = 0; i < job.size; i++) sum += ((const uint8_t *)job.data)[i];
    if (sum > 0 && is_done && mqs_jobs_done(jobs, &job) == 0) return 0;
    return mqs_jobs_give_back(jobs, &job);
}

static int call(struct mqs_jobs *jobs, enum kind kind, size_t *sum)
{
    char name[64];
    void *data;
    name[draw_name(name, sizeof name)] = 0;
    switch (kind) {
    case PUT_ONE: return mqs_jobs_put(jobs, name, below(30));
    case TAKE: case TAKE_ALL: return take(jobs, kind == TAKE);
    case TELL_DEAD: return mqs_jobs_dead(jobs, each_name, sum);
    case REVIVE: return mqs_jobs_revive(jobs, name);
    case SWEEP: return mqs_jobs_sweep(jobs);
    case COUNT: return mqs_jobs_pending(jobs);
    default:
        if (mqs_jobs_bury(jobs, name, &data) < 0) return -1;
        free(data);
        return 0;
    }
}

static void run_calls(struct mqs_jobs *jobs, const enum kind *kinds, uint64_t run)
{
    size_t sum = 0;
    for (size_t i = 0; i < CALLS; i++) {
        errno = 0;
        int r = call(jobs, kinds[i], &sum);
        *(r < 0 ? &failed[kinds[i]] : &worked[kinds[i]]) += 1;
        if (r >= -1 && r <= JOBS && (r >= 0 || errno != 0)) continue;
        findings++;
        printf("found in stream %llu: call %d, result %d, errno %d\n", (unsigned long long)run, (int)kinds[i], r, errno);
    }
}

static void run_stream(uint64_t run)
{
    struct stream s = { .size = 0 };
    enum kind kinds[CALLS];
    int ends[2];
    put_answer(&s, STARTED);
    ANSWERS(&s, OPENED, DONE, STAT, ATTRS, OPENED);
    for (size_t i = 0; i < CALLS; i++) {
        hoped = kinds[i] = i == 0 ? TAKE_ALL : (enum kind)below(KINDS);
        put_call(&s);
    }
    for (size_t i = below(3); i > 0; i--) s.bytes[below(s.size)] ^= (uint8_t)(1u << below(8));
    if (socketpair(AF_UNIX, SOCK_STREAM, 0, ends) < 0 || send(ends[1], s.bytes, s.size, MSG_DONTWAIT) != (ssize_t)s.size) abort();
    shutdown(ends[1], SHUT_WR);
    struct mqs *c = mqs_attach(ends[0], "key", BOUND_MS);
    struct mqs_jobs *jobs = c ? mqs_jobs_open(c, "/p", TRIES, 1000000) : NULL;
    opened += jobs != NULL;
    if (jobs) run_calls(jobs, kinds, run);
    mqs_jobs_close(jobs);
    mqs_disconnect(c);
    close(ends[1]);
}

int main(int argc, char **argv)
{
    uint64_t count = argc > 1 ? strtoull(argv[1], NULL, 10) : 10000, seed = argc > 2 ? strtoull(argv[2], NULL, 10) : 1;
    setvbuf(stdout, NULL, _IOLBF, 0);
    for (uint64_t run = 0; run < count; run++) {
        state = seed * UINT64_C(1000000007) + run;
        run_stream(run);
    }
    printf("worked and failed, of %ld pools:", opened);
    for (int kind = 0; kind < KINDS; kind++) printf(" %ld %ld;", worked[kind], failed[kind]);
    putchar('\n');
    printf("jobs_fuzz: %llu streams, seed %llu, %ld findings\n", (unsigned long long)count, (unsigned long long)seed, findings);
    return findings != 0;
}
