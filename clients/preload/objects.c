/* objects.c: the queues and semaphores that this process has open. Who calls these has the lock. */
#include "preload.h"

#include <errno.h>
#include <stdlib.h>
#include <string.h>

enum { ABSENT = 13 };

struct object *queues[QUEUES_MAX];
struct object semaphores[SEMAPHORES_MAX];
int queues_top, semaphores_top;

void set_up(struct object *o, int family, const char *name, int access, uint64_t description)
{
    memset(o, 0, sizeof *o);
    o->family = family;
    o->access = access;
    o->references = 1;
    memccpy(o->name, name, 0, NAME_ROOM - 1);
    for (int i = 0; i <= settings.sides; i++) o->at[i] = NO_DESCRIPTION;
    o->at[HOME] = description;
}

void for_each_object(void (*f)(struct object *o, int side), int side)
{
    for (int i = 0; i < queues_top; i++)
        if (queues[i]) f(queues[i], side);
    for (int i = 0; i < semaphores_top; i++)
        if (semaphores[i].references) f(&semaphores[i], side);
}

void for_each_named(int family, const char *name, void (*f)(struct object *o, void *arg), void *arg)
{
    for (int i = 0; family == MQS_QUEUES && i < queues_top; i++)
        if (queues[i] && !strcmp(queues[i]->name, name)) f(queues[i], arg);
    for (int i = 0; family == MQS_SEMAPHORES && i < semaphores_top; i++)
        if (semaphores[i].references && !strcmp(semaphores[i].name, name)) f(&semaphores[i], arg);
}

/* It was open on a home that is lost, and stays lost: by its name another object might be meant by now. Where calls go on after a restart, it
 * is opened by its name, unless this process has unlinked that. */
void lose(struct object *o)
{
    if (settings.reconnect && !o->gone) o->comes_back = 1;
    else if (!o->lost) o->lost = ECONNRESET;
}

/* A lost home is let go by the next open: this may be asked in the handler of a signal. */
static int is_lost(struct object *o)
{
    struct mqs *c = sides[HOME].connection;
    if (c && mqs_lost(c) && o->at[HOME] != NO_DESCRIPTION) lose(o);
    return o->lost;
}

static int open_at(struct object *o, int side, struct mqs *c)
{
    if (o->family == MQS_SEMAPHORES) return mqs_sem_open(c, o->name, 0, 0, 0, &o->at[side]);
    return mqs_mq_open(c, o->name, o->access, side == HOME ? MQS_NONBLOCK : 0, 0, NULL, &o->at[side]);
}

/* If the connection is lost meanwhile, the call itself never left. */
static int open_by_name(struct object *o, int side, struct mqs *c)
{
    int r = open_at(o, side, c);
    c->is_out = 0;
    if (side != HOME || !o->comes_back) return r;
    if (r < 0 && mqs_rule(c) == ABSENT) o->lost = ENOENT;
    if (r == 0) say(o->name, "opened again by its name");
    return r;
}

/* Has the object open in this session: opens it by its name where it isn't. One that was lost for good connects nothing anew. */
int bring(struct object *o, int side)
{
    if (is_lost(o)) return fail(o->lost);
    struct mqs *c = side == HOME ? home() : sides[side].connection;
    if (!c) return -1;
    if (o->gone && o->comes_back) lose(o);
    if (o->lost) return fail(o->lost);
    if (o->at[side] != NO_DESCRIPTION) return 0;
    if (o->gone) return fail(EBADF);
    sides[side].busy = 1;
    int r = open_by_name(o, side, c);
    sides[side].busy = side == HOME;
    return r;
}

static void close_everywhere(struct object *o)
{
    for (int i = 0; i <= settings.sides; i++)
        if (sides[i].connection && o->at[i] != NO_DESCRIPTION) close_later(i, o->family, o->at[i]);
    if (!innermost() || innermost()->has_home) close_late();
}

/* Lets one reference go. With the last one the object is closed in all sessions. */
void drop(struct object *o)
{
    if (--o->references) return;
    int error = errno;
    end_registration(o);
    close_everywhere(o);
    if (o->family == MQS_QUEUES) free(o);
    errno = error;
}
