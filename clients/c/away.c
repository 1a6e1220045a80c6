/* away.c: calls whose threads don't wait for their answers just now, or any more. A server answers a session's calls in their order, so
 * the next call on the connection first takes the answer of the one before. */
#include "away.h"

#include <errno.h>
#include <stdlib.h>
#include <string.h>

enum { SMALL_ANSWER = 64, POOL = 16 };   /* none but a message is greater, but for pages, which the preload library doesn't ask for */

/* A handler of a signal may be in sem_post, and the program in malloc. */
static _Alignas(struct away) uint8_t pool[POOL][sizeof(struct away) + SMALL_ANSWER];
static uint8_t is_used[POOL];

static struct away *take_room(size_t message)
{
    for (int i = 0; i < POOL && message == 0; i++) {
        if (is_used[i]) continue;
        is_used[i] = 1;
        return (struct away *)(void *)pool[i];
    }
    return malloc(sizeof(struct away) + SMALL_ANSWER + message);
}

void mqsi_end_away(struct away *a)
{
    for (int i = 0; i < POOL; i++)
        if ((void *)a == pool[i]) {
            is_used[i] = 0;
            return;
        }
    free(a);
}

struct away *mqsi_go_away(struct mqs *c, deadline end)
{
    size_t message = c->started != MQ_RECEIVE ? 0 : c->asked < MESSAGE_MAX ? c->asked : MESSAGE_MAX;
    struct away *a = take_room(message);
    if (!a) return NULL;
    *a = (struct away){ .op = c->op, .started = c->started, .is_timed = c->is_timed, .target = c->target, .asked = c->asked, .end = end,
                        .room = SMALL_ANSWER + message };
    c->started = 0;
    c->away = a;
    return a;
}

int mqsi_is_for_away(const struct mqs *c, size_t size)
{
    return c->away && c->away->started == MQ_RECEIVE && size <= c->away->asked;
}

struct away *mqsi_settle_away(struct mqs *c)
{
    struct away *a = c->away;
    if (mqsi_await_front(c, a->end) < 0) return NULL;
    size_t size = mqsi_front_size(c);
    if (size > a->room) {
        mqsi_lose(c, EPROTO);
        return NULL;
    }
    memcpy(a->frame, c->in + c->from, size);
    c->from += size;
    a->size = size;
    c->away = NULL;
    return a;
}

int mqsi_come_back(struct mqs *c, struct away *a)
{
    int r = 0;
    if (c->away == a) c->away = NULL;
    c->started = a->started;
    c->is_timed = a->is_timed;
    c->asked = a->asked;
    c->op = a->op;
    c->target = a->target;
    if (a->size > 0 && !c->lost) r = mqsi_put_in_front(c, a->frame, a->size);
    mqsi_end_away(a);
    return r < 0 || c->lost ? mqsi_fail(c->lost) : 0;
}
