/* calls.c: the calls that are answered at once. */
#include "again.h"

#include <errno.h>
#include <limits.h>

enum { LAST_MASK = 0777, SEM_VALUE_LAST = INT32_MAX, ABSENT = 13 };

/* ---- Opens ---- */

static int ask_open(struct mqs *c, const struct request *r, struct opened *o, uint64_t *description)
{
    struct answer a;
    if (c->again && !o) return -1;
    if (mqsi_ask(c, r, &a, OPENED) < 0) {
        mqsi_free_opened(o);
        return -1;
    }
    *description = mqsi_keep_opened(c, o, mqsi_get(a.fields, 8));
    return 0;
}

static int start_open(struct mqs *c, struct request *r, enum request_op op, const char *name)
{
    c->rule = 0;
    *r = mqsi_request(op);
    return mqsi_put_text(r, name);
}

int mqs_mq_open(struct mqs *c, const char *name, int access, int flags, unsigned mode, const struct mqs_attributes *given,
                uint64_t *description)
{
    struct request r;
    if (start_open(c, &r, MQ_OPEN, name) < 0) return -1;
    if (access < MQS_READ || access > MQS_BOTH || (flags & ~(MQS_CREATE | MQS_EXCLUSIVE | MQS_NONBLOCK))) return mqsi_fail(EINVAL);
    mqsi_put(&r, (uint64_t)access, 1);
    mqsi_put(&r, (uint64_t)flags, 1);
    mqsi_put(&r, mode, 2);
    mqsi_put(&r, given != NULL, 1);
    if (given) {
        mqsi_put(&r, given->messages, 4);
        mqsi_put(&r, given->message_size, 4);
    }
    return ask_open(c, &r, mqsi_new_opened(c, MQS_QUEUES, name, access, flags), description);
}

int mqs_sem_open(struct mqs *c, const char *name, int flags, unsigned mode, uint32_t value, uint64_t *description)
{
    struct request r;
    if (start_open(c, &r, SEM_OPEN, name) < 0) return -1;
    if (flags & ~(MQS_CREATE | MQS_EXCLUSIVE)) return mqsi_fail(EINVAL);
    mqsi_put(&r, (uint64_t)flags, 1);
    mqsi_put(&r, mode, 2);
    mqsi_put(&r, value, 4);
    return ask_open(c, &r, mqsi_new_opened(c, MQS_SEMAPHORES, name, 0, 0), description);
}

/* ---- By name, and by description ---- */

/* If an earlier try may have been done, a name that is gone was removed by it. */
static int unlink_name(struct mqs *c, enum request_op op, int family, const char *name)
{
    struct request r;
    if (start_open(c, &r, op, name) < 0) return -1;
    if (mqsi_ask_done(c, &r) < 0 && !(c->rule == ABSENT && c->again && c->again->is_unknown)) return -1;
    c->rule = 0;
    mqsi_mark_unlinked(c, family, name);
    return 0;
}

static int ask_by_description(struct mqs *c, enum request_op op, uint64_t description)
{
    struct request r = mqsi_by_description(op, description);
    return mqsi_ask_done(c, &r);
}

/* What a lost session had open is closed. */
static int close_object(struct mqs *c, enum request_op op, int family, uint64_t description)
{
    const struct opened *o = mqsi_opened(c, description);
    struct answer a;
    if (!o || o->family != family) return ask_by_description(c, op, description);
    struct request r = mqsi_by_description(op, o->at);
    c->rule = 0;
    if (o->is_here && !c->lost && mqsi_ask_once(c, &r, &a, DONE) < 0 && !c->lost) return -1;
    mqsi_forget_opened(c, description);
    return 0;
}

int mqs_mq_unlink(struct mqs *c, const char *name) { return unlink_name(c, MQ_UNLINK, MQS_QUEUES, name); }
int mqs_sem_unlink(struct mqs *c, const char *name) { return unlink_name(c, SEM_UNLINK, MQS_SEMAPHORES, name); }
int mqs_mq_close(struct mqs *c, uint64_t description) { return close_object(c, MQ_CLOSE, MQS_QUEUES, description); }
int mqs_sem_close(struct mqs *c, uint64_t description) { return close_object(c, SEM_CLOSE, MQS_SEMAPHORES, description); }
int mqs_sem_post(struct mqs *c, uint64_t description) { return ask_by_description(c, SEM_POST, description); }
int mqs_sem_trywait(struct mqs *c, uint64_t description) { return ask_by_description(c, SEM_TRYWAIT, description); }

int mqs_mq_notify(struct mqs *c, uint64_t description, int on)
{
    struct request r = mqsi_by_description(MQ_NOTIFY, description);
    struct opened *o = mqsi_opened(c, description);
    int result;
    mqsi_put(&r, on != 0, 1);
    do result = mqsi_ask_done(c, &r);
    while (result < 0 && mqsi_outlives(c));
    if (result == 0 && o) o->is_registered = on != 0;
    return result;
}

int mqs_mq_give(struct mqs *c, uint64_t description, uint64_t session)
{
    struct request r = mqsi_by_description(MQ_GIVE, description);
    mqsi_put(&r, session, 8);
    if (mqsi_ask_done(c, &r) < 0) return -1;
    mqsi_forget_opened(c, description);
    return 0;
}

static int ask_attributes(struct mqs *c, struct request *r, struct mqs_state *state)
{
    struct answer a;
    if (mqsi_ask(c, r, &a, ATTRS) < 0) return -1;
    if (a.fields[0] > 1) return mqsi_lose(c, EPROTO);
    if (state)
        *state = (struct mqs_state){ a.fields[0], (uint32_t)mqsi_get(a.fields + 1, 4), (uint32_t)mqsi_get(a.fields + 5, 4),
                                     (uint32_t)mqsi_get(a.fields + 9, 4) };
    return 0;
}

int mqs_mq_getattr(struct mqs *c, uint64_t description, struct mqs_state *state)
{
    struct request r = mqsi_by_description(MQ_GETATTR, description);
    return ask_attributes(c, &r, state);
}

int mqs_mq_setattr(struct mqs *c, uint64_t description, int nonblock, struct mqs_state *old)
{
    struct request r = mqsi_by_description(MQ_SETATTR, description);
    struct opened *o = mqsi_opened(c, description);
    mqsi_put(&r, nonblock != 0, 1);
    if (ask_attributes(c, &r, old) < 0) return -1;
    if (o) o->flags = nonblock ? MQS_NONBLOCK : 0;
    return 0;
}

int mqs_sem_getvalue(struct mqs *c, uint64_t description, uint32_t *value)
{
    struct request r = mqsi_by_description(SEM_GETVALUE, description);
    struct answer a;
    if (mqsi_ask(c, &r, &a, VALUE) < 0) return -1;
    uint64_t got = mqsi_get(a.fields, 4);
    if (got > SEM_VALUE_LAST) return mqsi_lose(c, EPROTO);
    *value = (uint32_t)got;
    return 0;
}

/* ---- Modes, owners and limits ---- */

int mqs_umask(struct mqs *c, unsigned mask)
{
    struct request r = mqsi_request(UMASK);
    struct answer a;
    mqsi_put(&r, mask, 2);
    if (mqsi_ask(c, &r, &a, MASK) < 0) return -1;
    int old = (int)mqsi_get(a.fields, 2);
    if (old > LAST_MASK) return mqsi_lose(c, EPROTO);
    c->mask = (int)(mask & LAST_MASK);
    return old;
}

static int put_target(struct mqs *c, struct request *r, int family, const char *name)
{
    c->rule = 0;
    if (family != MQS_QUEUES && family != MQS_SEMAPHORES) return mqsi_fail(EINVAL);
    mqsi_put(r, (uint64_t)family, 1);
    mqsi_put(r, name != NULL, 1);
    return name ? mqsi_put_text(r, name) : 0;
}

int mqs_stat(struct mqs *c, int family, const char *name, struct mqs_facts *facts)
{
    struct request r = mqsi_request(STAT_NAME);
    struct answer a;
    if (put_target(c, &r, family, name) < 0 || mqsi_ask(c, &r, &a, STAT) < 0) return -1;
    *facts = (struct mqs_facts){ (uint32_t)mqsi_get(a.fields, 4), (uint32_t)mqsi_get(a.fields + 4, 4),
                                 (unsigned)mqsi_get(a.fields + 8, 2) };
    return 0;
}

int mqs_chmod(struct mqs *c, int family, const char *name, unsigned mode)
{
    struct request r = mqsi_request(CHMOD);
    mqsi_put(&r, mode, 2);
    return put_target(c, &r, family, name) < 0 ? -1 : mqsi_ask_done(c, &r);
}

static void put_optional(struct request *r, int64_t number)
{
    mqsi_put(r, number >= 0, 1);
    if (number >= 0) mqsi_put(r, (uint64_t)number, 4);
}

static int is_id(int64_t number) { return number >= -1 && number <= UINT32_MAX; }

int mqs_chown(struct mqs *c, int family, const char *name, int64_t owner, int64_t group)
{
    struct request r = mqsi_request(CHOWN);
    c->rule = 0;
    if (!is_id(owner) || !is_id(group)) return mqsi_fail(EINVAL);
    put_optional(&r, owner);
    put_optional(&r, group);
    return put_target(c, &r, family, name) < 0 ? -1 : mqsi_ask_done(c, &r);
}

int mqs_set_limit(struct mqs *c, uint32_t user, uint64_t bytes)
{
    struct request r = mqsi_request(SET_LIMIT);
    mqsi_put(&r, user, 4);
    mqsi_put(&r, bytes, 8);
    return mqsi_ask_done(c, &r);
}
