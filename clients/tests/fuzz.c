/* fuzz.c COUNT [SEED]: mutated streams of answers through the library, under sanitizers. Each stream is what a server would answer to a
 * few calls, with some bytes changed, and then it ends or falls silent. Each call must end, with a result that it can have.
 * The last line says how many streams ran, and what was found. */
#include "../c/connection.h"

#include <errno.h>
#include <stdio.h>
#include <stdlib.h>
#include <string.h>
#include <sys/socket.h>
#include <unistd.h>

enum { STREAM = 8192, CALLS = 8, SILENT_MS = 3 };

static uint64_t state;
static long findings, answered, refused, lost;

/* splitmix64 */
static uint64_t draw(void)
{
    uint64_t z = state += UINT64_C(0x9e3779b97f4a7c15);
    z = (z ^ z >> 30) * UINT64_C(0xbf58476d1ce4e5b9);
    z = (z ^ z >> 27) * UINT64_C(0x94d049bb133111eb);
    return z ^ z >> 31;
}
static size_t below(size_t limit) { return limit ? (size_t)(draw() % limit) : 0; }

/* ---- Streams ---- */

struct stream { uint8_t bytes[STREAM]; size_t size; };

static void put(struct stream *s, uint64_t value, int bytes)
{
    while (bytes-- > 0 && s->size < STREAM) s->bytes[s->size++] = (uint8_t)(value >> (8 * bytes));
}

static void put_random(struct stream *s, size_t size)
{
    while (size-- > 0) put(s, draw(), 1);
}

static void put_head(struct stream *s, size_t fields, int op)
{
    put(s, fields + 1, 4);
    put(s, (uint64_t)op, 1);
}

static void put_page(struct stream *s, int op, size_t fixed)
{
    size_t count = below(5), size = 2, sizes[5];
    for (size_t i = 0; i < count; i++) size += fixed + 2 + (sizes[i] = below(20));
    put_head(s, size, op);
    put(s, count, 2);
    for (size_t i = 0; i < count; i++) {
        put_random(s, fixed);
        put(s, sizes[i], 2);
        put_random(s, sizes[i]);
    }
}

static void put_answer(struct stream *s, int op, size_t room)
{
    size_t size;
    switch (op) {
    case DONE: case SENT: case INTERRUPTED: put_head(s, 0, op); break;
    case STARTED: case OPENED: case NOTICE: case TAKEN: put_head(s, 8, op); put(s, below(9), 8); break;
    case MASK: put_head(s, 2, op); put(s, below(512), 2); break;
    case ATTRS: put_head(s, 13, op); put(s, below(2), 1); put_random(s, 12); break;
    case VALUE: put_head(s, 4, op); put(s, below(99), 4); break;
    case STAT: put_head(s, 10, op); put_random(s, 10); break;
    case NAMES: put_page(s, op, 0); break;
    case RECORDS: put_page(s, op, 19); break;
    case RECEIVED: put_head(s, 4 + (size = below(room + 1)), op); put(s, below(32768), 4); put_random(s, size); break;
    default: put_head(s, 2, REFUSED); put(s, 1 + below(LAST_RULE), 2);
    }
}

static void mutate(struct stream *s)
{
    static const uint8_t odd[] = { 0, 1, 2, 3, 5, 64, 65, 70, 71, 76, 77, 78, 79, 80, 127, 128, 254, 255 };
    size_t at = below(s->size), size = 1 + below(12);
    if (s->size == 0) return;
    switch (below(6)) {
    case 0: s->bytes[at] ^= (uint8_t)(1u << below(8)); break;
    case 1: s->bytes[at] = odd[below(sizeof odd)]; break;
    case 2: s->size = at; break;
    case 3:   /* without a few bytes */
        if (size > s->size - at) size = s->size - at;
        memmove(s->bytes + at, s->bytes + at + size, s->size - at - size);
        s->size -= size;
        break;
    case 4:   /* with a few more */
        if (s->size + size > STREAM) break;
        memmove(s->bytes + at + size, s->bytes + at, s->size - at);
        for (size_t i = 0; i < size; i++) s->bytes[at + i] = below(2) ? (uint8_t)draw() : odd[below(sizeof odd)];
        s->size += size;
        break;
    default:   /* a part of it once more */
        size = 1 + below(40);
        if (size > s->size - at) size = s->size - at;
        if (s->size + size > STREAM) break;
        memmove(s->bytes + at + size, s->bytes + at, s->size - at);
        s->size += size;
    }
}

/* ---- Calls ---- */

enum kind { OPEN, OPEN_SEM, CLOSE, ATTRIBUTES, VALUE_OF, STAT_OF, MASKS, LIST, TRAIL, SEND, RECEIVE, WAIT, PARTS, KINDS };
static const int wanted[KINDS] = { OPENED, OPENED, DONE, ATTRS, VALUE, STAT, MASK, NAMES, RECORDS, SENT, RECEIVED, DONE, RECEIVED };

struct plan { enum kind kind; size_t room; };

static int each_name(const char *name, size_t size, void *arg)
{
    for (size_t i = 0; i < size; i++) *(long *)arg += name[i];
    return below(9) == 0;
}

static int each_record(const struct mqs_record *record, void *arg) { return each_name(record->name, record->name_size, arg); }

static void find(const char *what, uint64_t run)
{
    findings++;
    printf("found in stream %llu: %s\n", (unsigned long long)run, what);
}

/* A receive that is started, looked at, perhaps stopped, and finished. */
static long call_in_parts(struct mqs *c, void *data, size_t room)
{
    struct timespec past = { 0, 0 };
    uint32_t priority;
    if (mqs_start_receive(c, 1, room) < 0) return -1;
    if (mqs_wait(c, &past) < 0 && errno == ETIMEDOUT && below(2)) {
        int stopped = mqs_stop(c);
        if (stopped != 0) return -1;
    }
    return mqs_finish_receive(c, data, room, &priority);
}

static long call(struct mqs *c, struct plan p)
{
    uint64_t description;
    uint32_t number;
    struct mqs_state attributes;
    struct mqs_facts facts;
    struct timespec past = { 0, 0 };
    const struct timespec *until = below(2) ? &past : NULL;
    long sum = 0, r;
    uint8_t *data = p.kind == RECEIVE || p.kind == PARTS ? malloc(p.room + (p.room == 0)) : NULL;   /* its end is watched */
    switch (p.kind) {
    case OPEN: r = mqs_mq_open(c, "/q", MQS_BOTH, 0, 0, NULL, &description); break;
    case OPEN_SEM: r = mqs_sem_open(c, "/s", MQS_CREATE, 0600, 1, &description); break;
    case CLOSE: r = mqs_mq_close(c, 1); break;
    case ATTRIBUTES: r = mqs_mq_getattr(c, 1, &attributes); break;
    case VALUE_OF: r = mqs_sem_getvalue(c, 1, &number); break;
    case STAT_OF: r = mqs_stat(c, MQS_SEMAPHORES, "/s", &facts); break;
    case MASKS: r = mqs_umask(c, 0); break;
    case LIST: r = mqs_list(c, MQS_QUEUES, 0, each_name, &sum); break;
    case TRAIL: r = mqs_audit(c, 0, each_record, &sum); break;
    case SEND: r = mqs_mq_send(c, 1, "message", 7, 0, until); break;
    case RECEIVE: r = mqs_mq_receive(c, 1, data, p.room, &number, until); break;
    case PARTS: r = call_in_parts(c, data, p.room); break;
    default: r = mqs_sem_wait(c, 1, until);
    }
    free(data);
    return r;
}

static void judge(struct mqs *c, struct plan p, long r, int error, uint64_t run)
{
    long most = p.kind == RECEIVE || p.kind == PARTS ? (long)p.room : p.kind == LIST || p.kind == TRAIL ? PAGE : p.kind == MASKS ? 0777 : 0;
    if (r < -1 || r > most) find("a result that the call can't have", run);
    if (r >= 0 && mqs_rule(c) != 0) find("a success with a rule", run);
    if (r >= 0 && mqs_lost(c)) find("a success on a lost connection", run);
    if (r == -1 && mqs_rule(c) != 0 && error != mqs_errno(mqs_rule(c)) && !mqs_lost(c)) find("a rule with another error", run);
    if (mqs_lost(c) && error != mqs_lost(c)) find("another error than that of the loss", run);
    if (mqs_lost(c) && error != ECONNRESET && error != EPROTO && error != ECONNABORTED) find("a loss that has no name", run);
    if (r >= 0) answered++;
    else if (mqs_lost(c)) lost++;
    else refused++;
}

/* ---- Runs ---- */

static void plan_calls(struct plan *plans, size_t count, struct stream *s)
{
    put_answer(s, STARTED, 0);
    for (size_t i = 0; i < count; i++) {
        plans[i] = (struct plan){ (enum kind)below(KINDS), below(300) };
        while (below(4) == 0) put_answer(s, below(2) ? NOTICE : TAKEN, 0);
        put_answer(s, below(6) == 0 ? REFUSED : wanted[plans[i].kind], plans[i].room);
    }
}

static void run_stream(uint64_t run)
{
    struct plan plans[CALLS];
    struct stream s = { .size = 0 };
    size_t count = 1 + below(CALLS);
    plan_calls(plans, count, &s);
    for (size_t i = below(5); i > 0; i--) mutate(&s);
    int ends[2], is_silent = below(400) == 0;
    if (socketpair(AF_UNIX, SOCK_STREAM, 0, ends) < 0 || send(ends[1], s.bytes, s.size, MSG_DONTWAIT) != (ssize_t)s.size) abort();
    if (!is_silent) shutdown(ends[1], SHUT_WR);
    struct mqs *c = mqs_attach(ends[0], "key", is_silent ? SILENT_MS : 1000);
    for (size_t i = 0; c && i < count; i++) {
        if (is_silent && (plans[i].kind == SEND || plans[i].kind >= RECEIVE)) continue;   /* these may wait for ever */
        errno = 0;
        long r = call(c, plans[i]);
        judge(c, plans[i], r, errno, run);
        uint64_t description;
        int what;
        while (below(3) == 0 && mqs_next_unasked(c, &what, &description) == 1)
            if (what != MQS_NOTICE && what != MQS_TAKEN) find("something else unasked", run);
    }
    if (c) mqs_disconnect(c);
    else lost++;
    close(ends[1]);
}

int main(int argc, char **argv)
{
    uint64_t count = argc > 1 ? strtoull(argv[1], NULL, 10) : 100000, seed = argc > 2 ? strtoull(argv[2], NULL, 10) : 1;
    setvbuf(stdout, NULL, _IOLBF, 0);
    for (uint64_t run = 0; run < count; run++) {
        state = seed * UINT64_C(1000000007) + run;
        run_stream(run);
    }
    printf("calls: %ld answered, %ld refused or timed out, %ld on lost connections\n", answered, refused, lost);
    printf("fuzz: %llu streams, seed %llu, %ld findings\n", (unsigned long long)count, (unsigned long long)seed, findings);
    return findings != 0;
}
