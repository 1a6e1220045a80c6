/* names.c: unlinks. With MQSERVE_KEEP_NAMES=1 the unlink of a name that the process has open is put off to its end, or to its
 * next creation of that name: children can then open the object by its name. */
#include "preload.h"

#include <errno.h>
#include <fcntl.h>
#include <stdlib.h>
#include <string.h>
#include <sys/stat.h>
#include <unistd.h>

enum { ABSENT = 13 };

struct kept { struct kept *next; int family; pid_t process; char name[NAME_ROOM]; };
static struct kept *kept;

static struct kept **find_kept(int family, const char *name)
{
    struct kept **k = &kept;
    while (*k && ((*k)->family != family || strcmp((*k)->name, name))) k = &(*k)->next;
    return k;
}

/* Whether this process has unlinked the name, and the server doesn't know yet. */
int is_kept(int family, const char *name)
{
    struct kept *k = *find_kept(family, name);
    return k && k->process == getpid();
}

static int keep(int family, const char *name)
{
    struct kept *k = calloc(1, sizeof *k);
    if (!k) return -1;
    *k = (struct kept){ .next = kept, .family = family, .process = getpid() };
    memccpy(k->name, name, 0, NAME_ROOM - 1);
    kept = k;
    return 0;
}

static int unlink_now(int family, const char *name)
{
    struct mqs *c = home();
    if (!c) return -1;
    return family == MQS_QUEUES ? mqs_mq_unlink(c, name) : mqs_sem_unlink(c, name);
}

static void mark_gone(struct object *o, void *none)
{
    (void)none;
    o->gone |= o->unlinked;
}

/* -1: the server can't be told now, and is told later. The call before which it was to be told never left. */
int end_kept(int family, const char *name)
{
    struct kept **k = find_kept(family, name), *one = *k;
    if (!one) return 0;
    if (one->process == getpid()) {
        if (unlink_now(family, name) < 0 && settings.reconnect && loss_at(HOME) != NOT_LOST) {
            if (sides[HOME].connection) sides[HOME].connection->is_out = 0;
            return -1;
        }
        for_each_named(family, name, mark_gone, NULL);
    }
    *k = one->next;
    free(one);
    return 0;
}

int keeps_names(void) { return kept != NULL; }

void end_all_kept(void)
{
    while (kept && end_kept(kept->family, kept->name) == 0) {}
}

static void count_bound(struct object *o, void *count) { *(int *)count += !o->unlinked; }

static void mark(struct object *o, void *keeps)
{
    o->unlinked = 1;
    o->gone |= !*(int *)keeps;
}

struct unlinking { int family; const char *name; const struct tries *tries; };

/* If an earlier try may have been done, a name that is gone was removed by it. */
static int unlink_once(void *arg)
{
    const struct unlinking *u = arg;
    if (unlink_now(u->family, u->name) == 0) return 0;
    const struct mqs *c = sides[HOME].connection;
    return u->tries->is_unknown && c && mqs_rule(c) == ABSENT ? 0 : -1;
}

int unlink_name(int family, const char *name)
{
    struct entry e;
    struct unlinking unlinking = { family, name, &e.tries };
    int bound = 0, r;
    if (strlen(name) > NAME_LONGEST) return fail(ENAMETOOLONG);   /* a bad pointer faults here, before the lock */
    enter(&e);
    if (settings.keep_names) for_each_named(family, name, count_bound, &bound);
    int was_kept = is_kept(family, name), keeps = !was_kept && bound > 0 && keep(family, name) == 0;
    if (was_kept) r = fail(ENOENT);
    else r = keeps ? 0 : at_home(&e, SAFE, unlink_once, &unlinking);
    if (r == 0) for_each_named(family, name, mark, &keeps);
    leave(&e);
    return r;
}

/* No call tells the mask without changing it. What other threads create in that moment is theirs alone. */
static unsigned umask_by_changing(void)
{
    mode_t mask = umask(077);
    umask(mask);
    return mask;
}

/* The mode without the bits of the program's mask. That file can't be read without /proc, nor where no further file can be opened. */
unsigned mode_under_umask(unsigned mode)
{
    char text[4096];
    int fd = open("/proc/self/status", O_RDONLY | O_CLOEXEC);
    ssize_t size = fd < 0 ? -1 : read(fd, text, sizeof text - 1);
    if (fd >= 0) close(fd);
    text[size < 0 ? 0 : size] = 0;
    const char *at = strstr(text, "\nUmask:");
    return mode & 0777 & ~(at ? (unsigned)strtoul(at + 7, NULL, 8) : umask_by_changing());
}

int open_flags(int oflag)
{
    return (oflag & O_CREAT ? MQS_CREATE : 0) | (oflag & O_EXCL ? MQS_EXCLUSIVE : 0);
}
