/* left.c: calls that their threads have left: a signal or a moment ended them while a server said nothing, a handler jumped out of them, or the
 * thread was cancelled. If such a call took a message or a unit nevertheless, that is put back once the answer is there. */
#include "preload.h"

#include <errno.h>
#include <stdlib.h>
#include <string.h>

enum { GRACE_NS = 100000000, MESSAGE_AT = 9 };   /* MESSAGE_AT: in the frame of an answer, after its priority */

/* ---- Putting back ---- */

/* Messages that found their queues full. */
static struct message { struct message *next; struct object *object; uint32_t priority; size_t size; uint8_t data[]; } *kept;

/* A message is sent by home's description, or if that is for receives alone, by one that is opened for it. It comes after others of its
 * priority. -1: the queue is full, or the server away for a while. */
static int try_to_send(struct object *o, const void *data, size_t size, uint32_t priority)
{
    int r = 0;
    if (bring(o, HOME) < 0) return settings.reconnect && !o->lost && loss_at(HOME) != NOT_LOST ? -1 : 0;
    struct mqs *c = sides[HOME].connection;
    uint64_t description = o->at[HOME];
    int may_send = o->access & MQS_WRITE;
    if (!may_send && (o->gone || mqs_mq_open(c, o->name, MQS_WRITE, MQS_NONBLOCK, 0, NULL, &description) < 0)) return 0;
    if (mqs_start_send(c, description, data, size, priority) == 0 && mqs_wait_bound(c) == 0) r = mqs_finish(c);
    if (mqs_lost(c) && settings.reconnect) count_receive(o);
    if (r < 0 && errno != EAGAIN) r = 0;
    if (!may_send) mqs_mq_close(c, description);
    return r;
}

static void send_back(struct object *o, const void *data, size_t size, uint32_t priority)
{
    if (try_to_send(o, data, size, priority) == 0) return;
    struct message *m = malloc(sizeof *m + size);
    if (!m) return;
    *m = (struct message){ kept, o, priority, size };
    memcpy(m->data, data, size);
    o->references++;
    o->calls++;
    kept = m;
}

static void send_kept(void)
{
    struct message *m = kept;
    if (!m || try_to_send(m->object, m->data, m->size, m->priority) < 0 || kept != m) return;
    kept = m->next;
    m->object->calls--;
    drop(m->object);
    free(m);
}

static struct object *queue_at_home(uint64_t description)
{
    for (int i = 0; i < queues_top; i++)
        if (queues[i] && queues[i]->at[HOME] == description) return queues[i];
    return NULL;
}

/* Of a call that home has answered. */
void make_good(struct mqs *c, struct away *a)
{
    int answer = a->frame[4];
    struct object *o = a->op == MQ_RECEIVE && answer == RECEIVED ? queue_at_home(a->target) : NULL;
    if (o) send_back(o, a->frame + MESSAGE_AT, a->size - MESSAGE_AT, (uint32_t)mqsi_get(a->frame + 5, 4));
    if (a->op == SEM_TRYWAIT && answer == DONE) mqs_sem_post(c, a->target);
    mqsi_end_away(a);
}

/* Of a call on a side whose answer is in front. */
static void take_back(int side, struct object *o, enum operation operation)
{
    struct mqs *c = sides[side].connection;
    uint32_t priority = 0;
    if (operation != RECEIVES) {
        if (mqs_finish(c) == 0 && operation == WAITS && bring(o, HOME) == 0) mqs_sem_post(sides[HOME].connection, o->at[HOME]);
        return;
    }
    size_t room = mqsi_front_size(c);
    void *data = malloc(room);
    ssize_t size = data ? mqs_finish_receive(c, data, room, &priority) : mqsi_lose(c, ENOMEM);
    if (size >= 0) send_back(o, data, (size_t)size, priority);
    free(data);
}

/* ---- Sides whose answers are to come ---- */

int left_count;

void leave_side(int side, struct object *o, enum operation operation)
{
    struct side *s = &sides[side];
    o->references++;
    o->calls++;
    left_count++;
    s->left = o;
    s->operation = operation;
    s->left_until = mqsi_now() + settings.answer_ms * INT64_C(1000000);
}

static int is_settled(int side)
{
    struct mqs *c = sides[side].connection;
    int there;
    while ((there = mqsi_front(c)) == 0 && mqsi_fill(c) == 1) {}
    return there || mqsi_now() >= sides[side].left_until;
}

/* The receive of a lost connection may have taken a message. */
static void count_lost(int side, const struct object *o, enum operation operation)
{
    if (settings.reconnect && operation == RECEIVES && mqs_lost(sides[side].connection)) count_receive(o);
}

static void settle_left(int side)
{
    struct mqs *c = sides[side].connection;
    struct object *o = sides[side].left;
    int r = -1;
    sides[side].left = NULL;
    left_count--;
    if (mqsi_front(c) == 1) r = c->stale == STALE_SECOND ? 0 : mqs_finish_stop(c);
    else if (!mqs_lost(c)) mqsi_lose(c, ECONNABORTED);
    if (r == 0) take_back(side, o, sides[side].operation);
    count_lost(side, o, sides[side].operation);
    free_side(side);
    o->calls--;
    drop(o);
}

/* Looks at each such side, and waits for none. The caller has home. */
void reap(const struct entry *e)
{
    if (kept) send_kept();
    for (int i = HOME + 1; left_count > 0 && e->has_home && i <= settings.sides; i++)
        if (sides[i].left && is_settled(i)) settle_left(i);
}

/* In a child of fork, whose sides these aren't. */
void forget_left(void)
{
    left_count = 0;
    kept = NULL;
}

/* ---- Leaving ---- */

void unpin(struct entry *e)
{
    struct object *o = e->object;
    e->object = NULL;
    if (!o) return;
    o->calls--;
    drop(o);
}

/* Withdraws the call that blocks. Its answer is waited for but shortly. */
static void stop(struct entry *mine, const struct blocked *b)
{
    struct mqs *c = sides[b->side].connection;
    mine->blocked = (struct blocked *)(uintptr_t)b;
    int r = mqs_lost(c) ? -1 : mqs_stop(c);
    mine->blocked = NULL;
    count_lost(b->side, b->job->object, b->job->operation);
    if (r == 1 || mqs_lost(c)) free_side(b->side);
    else leave_side(b->side, b->job->object, b->job->operation);
}

/* The thread leaves its call for good, from the handler of a signal or from where the call waits. */
void abandon(struct entry *e)
{
    struct entry mine;
    struct away *a = e->away;
    enter_apart(&mine, mqsi_now() + GRACE_NS);
    e->is_left = 1;
    e->away = NULL;
    if (e->is_away) away_from_home--;
    e->is_away = 0;
    if (a && a->size == 0) a->is_left = 1;
    if (e->blocked) stop(&mine, e->blocked);
    if (take_home(&mine) == 0 && a && a->size > 0) make_good(sides[HOME].connection, a);
    unpin(e);
    leave(&mine);
}

/* The thread is cancelled, or its handler ends it or throws. */
void on_unwind(void *entry)
{
    struct entry *e = entry;
    if (!e->is_left) abandon(e);
    set_innermost(e->outer);
    pthread_sigmask(SIG_SETMASK, &e->mask, NULL);
}
