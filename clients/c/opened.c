/* opened.c: what a program has open on a connection that goes on after a loss. In each session an object is opened by its name when it is first
 * used there. */
#include "again.h"

#include <errno.h>
#include <stdlib.h>
#include <string.h>

enum { TARGET_AT = 5, ABSENT = 13 };

static const uint64_t none = UINT64_MAX;        /* no object has this number */
static const uint64_t first_own = UINT64_C(1) << 63;

/* ---- The list ---- */

void mqsi_free_opened(struct opened *o)
{
    if (!o) return;
    free(o->name);
    free(o);
}

struct opened *mqsi_new_opened(const struct mqs *c, int family, const char *name, int access, int flags)
{
    struct opened *o = c->again ? calloc(1, sizeof *o) : NULL;
    if (!o) return NULL;
    *o = (struct opened){ .family = family, .access = access, .flags = flags & MQS_NONBLOCK };
    if (!name || (o->name = strdup(name))) return o;
    free(o);
    return NULL;
}

struct opened *mqsi_opened(const struct mqs *c, uint64_t number)
{
    struct opened *o = c->again ? c->again->opened : NULL;
    while (o && o->number != number) o = o->next;
    return o;
}

/* A server may count from the beginning after a restart, so the program's number is the server's in the first session alone. */
uint64_t mqsi_keep_opened(struct mqs *c, struct opened *o, uint64_t at)
{
    struct again *g = c->again;
    if (!o) return at;
    o->number = g->sessions == 0 ? at : first_own + g->next_number++;
    o->at = at;
    o->is_here = 1;
    o->next = g->opened;
    g->opened = o;
    return o->number;
}

void mqsi_forget_opened(struct mqs *c, uint64_t number)
{
    for (struct opened **o = c->again ? &c->again->opened : NULL; o && *o; o = &(*o)->next) {
        if ((*o)->number != number) continue;
        struct opened *gone = *o;
        *o = gone->next;
        mqsi_free_opened(gone);
        return;
    }
}

void mqsi_mark_unlinked(struct mqs *c, int family, const char *name)
{
    for (struct opened *o = c->again ? c->again->opened : NULL; o; o = o->next)
        if (o->family == family && o->name && !strcmp(o->name, name)) o->is_unlinked = 1;
}

uint64_t mqsi_number_of(struct mqs *c, int what, uint64_t at)
{
    if (!c->again) return at;
    struct opened *o = c->again->opened;
    while (o && !(o->is_here && o->at == at)) o = o->next;
    if (!o) return what == TAKEN ? mqsi_keep_opened(c, mqsi_new_opened(c, MQS_QUEUES, NULL, 0, 0), at) : at;
    if (what == NOTICE) o->is_registered = 0;
    return o->number;
}

/* ---- Sessions ---- */

/* A program that waits for a notice gets a last one, since the registration is gone. What it unlinked, or was given, has no name any more. */
void mqsi_end_opened(struct mqs *c)
{
    for (struct opened *o = c->again->opened; o; o = o->next) {
        if (o->is_here && o->is_registered) mqsi_keep_unasked(c, NOTICE, o->number);
        if (o->is_unlinked || !o->name) o->error = ECONNRESET;
        o->is_here = o->is_registered = 0;
    }
}

static struct request request_to_open(const struct opened *o)
{
    struct request r = mqsi_request(o->family == MQS_QUEUES ? MQ_OPEN : SEM_OPEN);
    mqsi_put_text(&r, o->name);
    if (o->family == MQS_QUEUES) mqsi_put(&r, (uint64_t)o->access, 1);
    mqsi_put(&r, (uint64_t)o->flags, 1);
    mqsi_put(&r, 0, 2);                                 /* no mode, and no attributes or value: it isn't created */
    mqsi_put(&r, 0, o->family == MQS_QUEUES ? 1 : 4);
    return r;
}

/* If the connection is lost meanwhile, the call itself never left. */
static int open_by_name(struct mqs *c, struct opened *o)
{
    struct request r = request_to_open(o);
    struct answer a;
    int result = mqsi_ask_once(c, &r, &a, OPENED);
    c->is_out = 0;
    if (result < 0 && c->rule == ABSENT) o->error = ENOENT;
    if (result < 0) return -1;
    o->at = mqsi_get(a.fields, 8);
    o->is_here = 1;
    return 0;
}

/* A number that isn't known may be of an object that was opened before the connection was told to go on. */
int mqsi_translate(struct mqs *c, struct request *r)
{
    uint64_t at = mqsi_get(r->head + TARGET_AT, 8);
    struct opened *o = mqsi_opened(c, at);
    if (o && o->error) {
        c->rule = 0;
        return mqsi_fail(o->error);
    }
    if (o && !o->is_here && open_by_name(c, o) < 0) return -1;
    if (o) at = o->at;
    else if (c->again->sessions > 0) at = none;
    for (int i = 0; i < 8; i++) r->head[TARGET_AT + i] = (uint8_t)(at >> (56 - 8 * i));
    return 0;
}
