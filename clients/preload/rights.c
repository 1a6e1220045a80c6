/* rights.c: a process that gives its user away. At a socket of a user's own the user is known by the socket, which the process can't open
 * any more then. So one that has queues or semaphores of a parent connects before. */
#include "preload.h"

#include <dlfcn.h>
#include <errno.h>
#include <string.h>
#include <unistd.h>

static void reopen(struct object *o, int side)
{
    if (!o->lost && !o->gone && o->at[side] == NO_DESCRIPTION && bring(o, side) == 0) spread(o);
}

/* Opens all objects on home. Without any, no connection is made. */
static void connect_before(void)
{
    struct entry e;
    int error = errno;
    if (!is_served() || strncmp(settings.address, "unix-user:", 10)) return;
    if (owner != getpid()) return;   /* a child of vfork: everything is its parent's */
    enter(&e);
    for_each_object(reopen, HOME);
    leave(&e);
    errno = error;
}

/* They are found at each call, which is rare. */
static void *find(const char *name) { return dlsym(RTLD_NEXT, name); }

PUBLIC int setuid(uid_t user)
{
    int (*next)(uid_t);
    connect_before();
    *(void **)&next = find("setuid");
    return next(user);
}

PUBLIC int seteuid(uid_t user)
{
    int (*next)(uid_t);
    connect_before();
    *(void **)&next = find("seteuid");
    return next(user);
}

PUBLIC int setreuid(uid_t real, uid_t effective)
{
    int (*next)(uid_t, uid_t);
    connect_before();
    *(void **)&next = find("setreuid");
    return next(real, effective);
}

PUBLIC int setresuid(uid_t real, uid_t effective, uid_t saved)
{
    int (*next)(uid_t, uid_t, uid_t);
    connect_before();
    *(void **)&next = find("setresuid");
    return next(real, effective, saved);
}
