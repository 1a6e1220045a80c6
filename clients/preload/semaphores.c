/* semaphores.c: the named part of <semaphore.h>. A sem_t of a named semaphore is an address within the library's own list; other
 * addresses are unnamed semaphores, and go on to the C library. */
#include "preload.h"

#include <errno.h>
#include <fcntl.h>
#include <stdarg.h>
#include <string.h>

enum { SHORT_NAME = 300 };

static struct object *named(const sem_t *s)
{
    uintptr_t at = (uintptr_t)s, first = (uintptr_t)semaphores;
    return at >= first && at < first + sizeof semaphores ? &semaphores[(at - first) / sizeof *semaphores] : NULL;
}

/* The name with one slash in front, however many it has, as the C library reads it; a server refuses one as long as the room. */
static const char *one_slash(const char *name, char room[SHORT_NAME])
{
    size_t slashes = strspn(name, "/");
    if (slashes > 0) return name + slashes - 1;
    room[0] = '/';
    size_t size = strnlen(name, SHORT_NAME - 2);
    memcpy(room + 1, name, size);
    room[size + 1] = 0;
    return room;
}

/* ---- Opening ---- */

static void find_bound(struct object *o, void *found)
{
    if (!o->unlinked && !o->lost) *(struct object **)found = o;
}

static struct object *empty_place(void)
{
    int i = 0;
    while (i < semaphores_top && semaphores[i].references) i++;
    if (i == SEMAPHORES_MAX) return NULL;
    if (i == semaphores_top) semaphores_top++;
    return &semaphores[i];
}

/* One address for one semaphore. That another process unlinked the name and made a new one can be seen only where this open
 * made a new one for certain. */
static struct object *object_of(const char *name, int is_new, uint64_t description)
{
    struct object *o = NULL;
    for_each_named(MQS_SEMAPHORES, name, find_bound, &o);
    if (o && is_new) {
        o->unlinked = o->gone = 1;
        o = NULL;
    }
    if (o) {
        o->references++;
        close_at(HOME, MQS_SEMAPHORES, description);
        return o;
    }
    o = empty_place();
    if (o) {
        set_up(o, MQS_SEMAPHORES, name, MQS_BOTH, description);
        spread(o);
    } else {
        close_at(HOME, MQS_SEMAPHORES, description);
        errno = EMFILE;
    }
    return o;
}

struct opening { const char *name; int oflag; unsigned mode, value; struct object *o; };

static int open_once(void *arg)
{
    struct opening *given = arg;
    uint64_t description;
    int is_creating = (given->oflag & O_CREAT) != 0, flags = open_flags(given->oflag);
    struct mqs *c = home_for_open();
    if (!c) return -1;
    if (is_creating && end_kept(MQS_SEMAPHORES, given->name) < 0) return -1;
    if (!is_creating && is_kept(MQS_SEMAPHORES, given->name)) return fail(ENOENT);
    if (mqs_sem_open(c, given->name, flags, is_creating ? mode_under_umask(given->mode) : 0, given->value, &description) < 0) return -1;
    given->o = object_of(given->name, flags == (MQS_CREATE | MQS_EXCLUSIVE), description);
    return given->o ? 0 : -1;
}

PUBLIC sem_t *sem_open(const char *given, int oflag, ...)
{
    unsigned mode = 0, value = 0;
    if (oflag & O_CREAT) {
        va_list rest;
        va_start(rest, oflag);
        mode = va_arg(rest, unsigned);
        value = va_arg(rest, unsigned);
        va_end(rest);
    }
    if (!is_served()) return libc()->sem_open(given, oflag, mode, value);
    struct entry e;
    char room[SHORT_NAME];
    struct opening opening = { one_slash(given, room), oflag, mode, value, NULL };
    enter(&e);
    int r = open_at_home(&e, oflag, open_once, &opening);
    leave(&e);
    return r == 0 ? (sem_t *)(void *)opening.o : SEM_FAILED;
}

PUBLIC int sem_unlink(const char *given)
{
    char room[SHORT_NAME];
    return is_served() ? unlink_name(MQS_SEMAPHORES, one_slash(given, room)) : libc()->sem_unlink(given);
}

/* ---- What is done with one semaphore ---- */

/* The server's EBADF is EINVAL for a semaphore. */
static int end(int r, const struct entry *e)
{
    if (r < 0 && errno == EBADF) errno = EINVAL;
    leave((struct entry *)(uintptr_t)e);
    return r;
}

PUBLIC int sem_close(sem_t *s)
{
    struct object *o = named(s);
    struct entry e;
    if (!o) return libc()->sem_close(s);
    enter(&e);
    int r = o->references ? 0 : fail(EINVAL);
    if (r == 0) drop(o);
    return end(r, &e);
}

struct asking { struct object *o; uint32_t value; };

static int post_once(void *asking)
{
    struct object *o = ((struct asking *)asking)->o;
    return bring(o, HOME) < 0 ? -1 : mqs_sem_post(sides[HOME].connection, o->at[HOME]);
}

static int try_once(void *asking)
{
    struct object *o = ((struct asking *)asking)->o;
    return bring(o, HOME) < 0 ? -1 : mqs_sem_trywait(sides[HOME].connection, o->at[HOME]);
}

static int read_once(void *asking)
{
    struct asking *to = asking;
    return bring(to->o, HOME) < 0 ? -1 : mqs_sem_getvalue(sides[HOME].connection, to->o->at[HOME], &to->value);
}

/* The object has to be open. */
static int ask(struct asking *asking, enum repeat repeat, int (*once)(void *asking))
{
    struct entry e;
    enter(&e);
    int r = asking->o->references ? 0 : fail(EINVAL);
    if (r == 0) pin(&e, asking->o);
    if (r == 0) r = at_home(&e, repeat, once, asking);
    return end(r, &e);
}

PUBLIC int sem_post(sem_t *s)
{
    struct asking asking = { .o = named(s) };
    return asking.o ? ask(&asking, UNSAFE, post_once) : libc()->sem_post(s);
}

PUBLIC int sem_trywait(sem_t *s)
{
    struct asking asking = { .o = named(s) };
    return asking.o ? ask(&asking, UNSAFE, try_once) : libc()->sem_trywait(s);
}

PUBLIC int sem_getvalue(sem_t *s, int *value)
{
    struct asking asking = { .o = named(s) };
    if (!asking.o) return libc()->sem_getvalue(s, value);
    int r = ask(&asking, SAFE, read_once);
    if (r == 0) *value = (int)asking.value;
    return r;
}

/* ---- Waits ---- */

static int wait_until(struct object *o, const struct timespec *until)
{
    struct entry e;
    struct job j = { o, WAITS, NULL, 0, 0 };
    pthread_testcancel();
    if (enter_until(&e, until) < 0) return -1;
    int r = o->references ? 0 : fail(EINVAL);
    if (r == 0) pin(&e, o);
    if (r == 0) r = (int)perform(&j, until, &e);
    return end(r, &e);
}

static int has_nanoseconds(const struct timespec *until) { return until->tv_nsec >= 0 && until->tv_nsec < 1000000000; }

PUBLIC int sem_wait(sem_t *s)
{
    struct object *o = named(s);
    return o ? wait_until(o, NULL) : libc()->sem_wait(s);
}

PUBLIC int sem_timedwait(sem_t *s, const struct timespec *until)
{
    struct object *o = named(s);
    if (!o) return libc()->sem_timedwait(s, until);
    return has_nanoseconds(until) ? wait_until(o, until) : fail(EINVAL);
}

/* The moment of CLOCK_REALTIME that is as far away as this one of CLOCK_MONOTONIC, which is looked at first: time that passes in between
 * makes the wait longer, and never shorter. */
static struct timespec on_wall_clock(const struct timespec *until)
{
    struct timespec wall, other;
    clock_gettime(CLOCK_MONOTONIC, &other);
    clock_gettime(CLOCK_REALTIME, &wall);
    int64_t nanoseconds = wall.tv_nsec - other.tv_nsec + until->tv_nsec, seconds = nanoseconds / 1000000000;
    nanoseconds %= 1000000000;
    if (nanoseconds < 0) {
        nanoseconds += 1000000000;
        seconds--;
    }
    time_t between = wall.tv_sec - other.tv_sec + seconds;
    if (until->tv_sec > INT64_MAX - between) return (struct timespec){ INT64_MAX, 0 };
    return (struct timespec){ between + until->tv_sec, nanoseconds };
}

PUBLIC int sem_clockwait(sem_t *s, clockid_t clock, const struct timespec *until)
{
    struct object *o = named(s);
    if (!o) return libc()->sem_clockwait(s, clock, until);
    if ((clock != CLOCK_REALTIME && clock != CLOCK_MONOTONIC) || !has_nanoseconds(until)) return fail(EINVAL);
    struct timespec moment = clock == CLOCK_MONOTONIC ? on_wall_clock(until) : *until;
    return wait_until(o, &moment);
}
