/* fork.c: two processes can't share a session. A child closes its copies of the sockets, connects when it first needs to, and
 * opens its objects by their names. Those whose names are gone it has only if the parent gives it a side on which they are open.
 * Registrations aren't inherited. */
#include "watch.h"

#include <unistd.h>

_Atomic pid_t owner;
unsigned forks;
static struct entry forking;    /* that of the thread which forks: who has the lock */
static int given;               /* the side that the child gets, or 0 */
static int gone_there;          /* a count for the search of one */

static void count_gone(struct object *o, int side) { gone_there += o->gone && o->at[side] != NO_DESCRIPTION; }

static int side_to_give(void)
{
    for (int i = HOME + 1; i <= settings.sides; i++) {
        gone_there = 0;
        if (sides[i].connection && !sides[i].busy) for_each_object(count_gone, i);
        if (gone_there) return i;
    }
    return 0;
}

static void before_fork(void)
{
    struct entry mine;   /* another thread may be forking yet */
    hold(&mine);
    forking = mine;
    given = side_to_give();
    hold_watches();
}

/* Closes the parent's copy of the socket; the session goes on in the child. */
static void in_parent(void)
{
    struct entry mine = forking;
    release_watches();
    if (given) end_side(given);
    let_go(&mine);
}

/* Only the thread that forked is there: the calls of others aren't this process's, and objects that they alone had are closed. Its own calls, in
 * whose handlers it forked, go on. */
static void end_calls(struct object *o)
{
    unsigned own = 0;
    for (struct entry *e = innermost(); e; e = e->outer) own += e->object == o;
    unsigned others = o->calls - own;
    o->calls = own;
    while (others-- > 0) drop(o);
}

static void take_over(struct object *o, int side)
{
    uint64_t description = side == HOME ? NO_DESCRIPTION : o->at[side];
    for (int i = 0; i <= settings.sides; i++) o->at[i] = NO_DESCRIPTION;
    o->at[HOME] = description;
    end_registration(o);
    if (o->family == MQS_QUEUES && description != NO_DESCRIPTION) mqs_mq_setattr(sides[HOME].connection, description, 1, NULL);
    end_calls(o);
}

/* The calls that other threads had begun aren't this process's, and its own begin again. */
static void begin_anew(int side)
{
    struct side mine = sides[side];
    if (side != HOME) sides[side].connection = NULL;
    for (int i = 0; i <= settings.sides; i++) {
        forget_side(i, 1);   /* a handler of a signal may fork while the program is in malloc */
        sides[i].busy = 0;
    }
    for (struct entry *e = innermost(); e; e = e->outer) {
        e->away = NULL;
        e->is_away = 0;
    }
    if (side != HOME) sides[HOME] = (struct side){ .connection = mine.connection, .device = mine.device, .inode = mine.inode };
    owner = getpid();
    forks++;
    away_from_home = 0;
    forget_left();
    forget_receives();
    forget_listener();
    forget_watches();
    for_each_object(take_over, side);
}

/* The thread that forked has the locks here too. */
static void in_child(void)
{
    release_watches();
    unlock_state(&forking);
    renew_lock();
    lock_state(&forking);
    begin_anew(given);
    let_go(&forking);
}

/* A process that came about without these handlers, by the system call clone. */
void recover_from_clone(void)
{
    renew_lock();
    renew_watches();
    begin_anew(HOME);
}

int watch_forks(void) { return pthread_atfork(before_fork, in_parent, in_child) ? -1 : 0; }
