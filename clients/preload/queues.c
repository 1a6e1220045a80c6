/* queues.c: <mqueue.h>. An mqd_t is the number of a file that is opened for it (readiness.c): no other file gets that number, it is closed
 * on exec as an mqd_t is, and its open file description has the queue's O_NONBLOCK, which the process's children share. */
#include "watch.h"

#include <errno.h>
#include <fcntl.h>
#include <stdarg.h>
#include <stdlib.h>
#include <string.h>
#include <sys/stat.h>
#include <unistd.h>

enum { PRIORITIES = 32768 };

/* NULL also if the program has closed the number by close, and may have opened another file that has it now. */
static struct object *queue_of(mqd_t fd)
{
    struct stat file;
    struct object *o = fd >= 0 && fd < QUEUES_MAX ? queues[fd] : NULL;
    if (!o || fstat(fd, &file) < 0) return NULL;
    return file.st_dev == o->device && file.st_ino == o->inode ? o : NULL;
}

/* ---- O_NONBLOCK ---- */

/* Of a file that the program has closed by itself it isn't known. */
int is_nonblock(const struct object *o)
{
    int flags = o->family == MQS_QUEUES ? fcntl(o->fd, F_GETFL) : 0;
    return flags >= 0 && (flags & O_NONBLOCK);
}

static int set_nonblock(int fd, int is_on)
{
    int flags = fcntl(fd, F_GETFL);
    return flags < 0 ? -1 : fcntl(fd, F_SETFL, is_on ? flags | O_NONBLOCK : flags & ~O_NONBLOCK);
}

/* ---- Opening and closing ---- */

static int access_of(int oflag)
{
    int mode = oflag & O_ACCMODE;
    return mode == O_RDONLY ? MQS_READ : mode == O_WRONLY ? MQS_WRITE : MQS_BOTH;
}

static uint32_t limited(long number) { return number < 0 || number > UINT32_MAX ? 0 : (uint32_t)number; }

struct opening { struct object *o; const char *name; int oflag; unsigned mode; const struct mq_attr *attr; };

/* Opens on home. The object is this process's afterwards. */
static int open_once(void *arg)
{
    const struct opening *given = arg;
    uint64_t description;
    struct mqs_attributes attributes;
    int is_creating = (given->oflag & O_CREAT) != 0, access = access_of(given->oflag), has_attributes = is_creating && given->attr;
    struct mqs *c = home_for_open();
    if (!c) return -1;
    if (is_creating && end_kept(MQS_QUEUES, given->name) < 0) return -1;
    if (!is_creating && is_kept(MQS_QUEUES, given->name)) return fail(ENOENT);
    if (has_attributes) attributes = (struct mqs_attributes){ limited(given->attr->mq_maxmsg), limited(given->attr->mq_msgsize) };
    if (mqs_mq_open(c, given->name, access, open_flags(given->oflag) | MQS_NONBLOCK, is_creating ? mode_under_umask(given->mode) : 0,
                    has_attributes ? &attributes : NULL, &description) < 0)
        return -1;
    set_up(given->o, MQS_QUEUES, given->name, access, description);
    return 0;
}

/* An epoll file that looks at nothing is never ready, and a read of it never waits, with O_NONBLOCK or without. */
static int new_number(int oflag)
{
    int fd = epoll_create1(EPOLL_CLOEXEC);
    if (fd >= 0) mark_number(fd);
    if (fd < 0 || set_nonblock(fd, oflag & O_NONBLOCK) == 0) return fd;
    close(fd);
    return -1;
}

static void number(struct object *o, int fd)
{
    struct stat file = { 0 };
    fstat(fd, &file);
    o->fd = fd;
    o->device = file.st_dev;
    o->inode = file.st_ino;
}

static mqd_t open_queue(const char *name, int oflag, unsigned mode, const struct mq_attr *attr)
{
    struct entry e;
    struct mq_attr wanted = { 0 };
    if ((oflag & O_ACCMODE) == O_ACCMODE) return fail(EINVAL);
    if (attr) wanted = *attr;   /* a bad pointer faults here, before the lock */
    if (strlen(name) > NAME_LONGEST) return fail(ENAMETOOLONG);
    int fd = new_number(oflag);
    if (fd < 0) return -1;
    enter(&e);
    struct object *o = fd < QUEUES_MAX ? malloc(sizeof *o) : NULL;
    struct opening opening = { o, name, oflag, mode, attr ? &wanted : NULL };
    int r = o ? open_at_home(&e, oflag, open_once, &opening) : fail(fd < QUEUES_MAX ? ENOMEM : EMFILE);
    if (r == 0) {
        struct object *stale = queues[fd];   /* its number was closed by close, and is free again */
        number(o, fd);
        queues[fd] = o;
        if (fd >= queues_top) queues_top = fd + 1;
        if (stale) drop(stale);
        number_opened(fd);
        pin(&e, o);
        spread(o);
    } else {
        int error = errno;
        free(o);
        close(fd);
        errno = error;
    }
    leave(&e);
    return r == 0 ? fd : -1;
}

PUBLIC mqd_t mq_open(const char *name, int oflag, ...)
{
    unsigned mode = 0;
    struct mq_attr *attr = NULL;
    if (oflag & O_CREAT) {
        va_list rest;
        va_start(rest, oflag);
        mode = va_arg(rest, unsigned);
        attr = va_arg(rest, struct mq_attr *);
        va_end(rest);
    }
    return is_served() ? open_queue(name, oflag, mode, attr) : libc()->mq_open(name, oflag, mode, attr);
}

/* What glibc's headers make of an mq_open of two arguments where they check more. */
PUBLIC mqd_t __mq_open_2(const char *name, int oflag);
PUBLIC mqd_t __mq_open_2(const char *name, int oflag) { return mq_open(name, oflag & ~O_CREAT); }

/* A notice that was sent before is delivered. */
static void withdraw(struct object *o)
{
    if (!o->registered || mqs_mq_notify(sides[HOME].connection, o->at[HOME], 0) < 0) return;
    take_earlier_notices();
    end_registration(o);
}

PUBLIC int mq_close(mqd_t fd)
{
    struct entry e;
    if (!is_served()) return libc()->mq_close(fd);
    enter(&e);
    struct object *o = queue_of(fd);
    int r = o ? 0 : fail(EBADF), was_watched = 0;
    if (o) {
        pin(&e, o);
        withdraw(o);   /* now, also where a call that blocks still has the object */
        if (queues[fd] == o) {
            queues[fd] = NULL;
            was_watched = number_closed(fd);
            close(fd);
            drop(o);
        }
    }
    leave(&e);
    if (was_watched) await_watcher();
    return r;
}

PUBLIC int mq_unlink(const char *name)
{
    return is_served() ? unlink_name(MQS_QUEUES, name) : libc()->mq_unlink(name);
}

/* ---- Messages ---- */

static int is_moment(const struct timespec *until)
{
    return !until || (until->tv_sec >= 0 && until->tv_nsec >= 0 && until->tv_nsec < 1000000000);
}

/* Linux looks at the moment first, then at the priority, and then at the queue. */
static ssize_t move_message(mqd_t fd, struct job *j, const struct timespec *until)
{
    struct entry e;
    pthread_testcancel();
    if (!is_moment(until) || j->priority >= PRIORITIES) return fail(EINVAL);
    if (enter_until(&e, until) < 0) return -1;
    j->object = queue_of(fd);
    if (j->object) pin(&e, j->object);
    ssize_t r = j->object ? perform(j, until, &e) : fail(EBADF);
    if (r >= 0) touch(j->object->name);
    leave(&e);
    if (settings.poll == 1) look_after(fd);
    return r;
}

static int send_message(mqd_t fd, const char *data, size_t size, unsigned priority, const struct timespec *until)
{
    struct job j = { NULL, SENDS, (void *)(uintptr_t)data, size, priority };
    return (int)move_message(fd, &j, until);
}

static ssize_t receive_message(mqd_t fd, char *data, size_t size, unsigned *priority, const struct timespec *until)
{
    struct job j = { NULL, RECEIVES, data, size, 0 };
    ssize_t r = move_message(fd, &j, until);
    if (r >= 0 && priority) *priority = j.priority;
    return r;
}

PUBLIC int mq_timedsend(mqd_t fd, const char *data, size_t size, unsigned priority, const struct timespec *until)
{
    if (!is_served()) return libc()->mq_timedsend(fd, data, size, priority, until);
    return send_message(fd, data, size, priority, until);
}

PUBLIC int mq_send(mqd_t fd, const char *data, size_t size, unsigned priority)
{
    return is_served() ? send_message(fd, data, size, priority, NULL) : libc()->mq_send(fd, data, size, priority);
}

PUBLIC ssize_t mq_timedreceive(mqd_t fd, char *data, size_t size, unsigned *priority, const struct timespec *until)
{
    if (!is_served()) return libc()->mq_timedreceive(fd, data, size, priority, until);
    return receive_message(fd, data, size, priority, until);
}

PUBLIC ssize_t mq_receive(mqd_t fd, char *data, size_t size, unsigned *priority)
{
    return is_served() ? receive_message(fd, data, size, priority, NULL) : libc()->mq_receive(fd, data, size, priority);
}

/* ---- Attributes ---- */

struct reading { struct object *o; struct mqs_state state; };

static int read_state(void *arg)
{
    struct reading *to = arg;
    return bring(to->o, HOME) < 0 ? -1 : mqs_mq_getattr(sides[HOME].connection, to->o->at[HOME], &to->state);
}

static int change_state(mqd_t fd, const struct mq_attr *new, struct mq_attr *old)
{
    struct entry e;
    struct mq_attr found = { 0 };
    long flags = new ? new->mq_flags : 0;
    if (flags & ~(long)O_NONBLOCK) return fail(EINVAL);
    enter(&e);
    struct reading reading = { .o = queue_of(fd) };
    if (reading.o) pin(&e, reading.o);
    int r = reading.o ? at_home(&e, SAFE, read_state, &reading) : fail(EBADF);
    if (r == 0) found.mq_flags = is_nonblock(reading.o) ? O_NONBLOCK : 0;
    if (r == 0 && new) r = set_nonblock(fd, (flags & O_NONBLOCK) != 0);
    leave(&e);
    found.mq_maxmsg = reading.state.messages;
    found.mq_msgsize = reading.state.message_size;
    found.mq_curmsgs = reading.state.messages_now;
    if (r == 0 && old) *old = found;
    return r;
}

PUBLIC int mq_setattr(mqd_t fd, const struct mq_attr *new, struct mq_attr *old)
{
    return is_served() ? change_state(fd, new, old) : libc()->mq_setattr(fd, new, old);
}

PUBLIC int mq_getattr(mqd_t fd, struct mq_attr *attr)
{
    return is_served() ? change_state(fd, NULL, attr) : libc()->mq_getattr(fd, attr);
}

/* ---- Notices ---- */

static int is_event(const struct sigevent *event)
{
    if (!event || event->sigev_notify == SIGEV_NONE || event->sigev_notify == SIGEV_THREAD) return 1;
    return event->sigev_notify == SIGEV_SIGNAL && event->sigev_signo >= 0 && event->sigev_signo <= SIGRTMAX;
}

static int register_for(struct object *o, const struct sigevent *event)
{
    struct mqs *c = sides[HOME].connection;
    if (start_listening() < 0 || mqs_mq_notify(c, o->at[HOME], 1) < 0) return -1;
    take_earlier_notices();   /* of the registration before */
    if (keep_event(o, event) == 0) return start_listening();
    int error = errno;
    mqs_mq_notify(c, o->at[HOME], 0);
    return fail(error);
}

/* An object whose name this process has unlinked isn't the one that has it now. */
static void withdraw_like(struct object *o, void *like)
{
    if (o->unlinked == ((struct object *)like)->unlinked) withdraw(o);
}

struct notifying { struct object *o; const struct sigevent *event; };

/* Linux ends the process's registration, whichever of its descriptors made it. */
static int notify_once(void *arg)
{
    const struct notifying *n = arg;
    if (bring(n->o, HOME) < 0) return -1;
    if (n->event) return register_for(n->o, n->event);
    for_each_named(MQS_QUEUES, n->o->name, withdraw_like, n->o);
    return 0;
}

PUBLIC int mq_notify(mqd_t fd, const struct sigevent *event)
{
    struct entry e;
    if (!is_served()) return libc()->mq_notify(fd, event);
    if (!is_event(event)) return fail(EINVAL);
    if (event) give_way(fd);
    enter(&e);
    struct object *o = queue_of(fd);
    struct notifying notifying = { o, event };
    int r;
    if (o) pin(&e, o);
    do r = o ? at_home(&e, SAFE, notify_once, &notifying) : fail(EBADF);
    while (r < 0 && o && outlives(&e));
    if (registrations) take_notices();
    leave(&e);
    if (event) end_giving_way(fd);
    return r;
}
