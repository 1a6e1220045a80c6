/* epoll.c: epoll_ctl and the waits for epoll sets. Each passes on to the C library's, after it has named the queue, or all queues of sets
 * (watches.c). */
#include "watch.h"

#include <errno.h>
#include <sys/epoll.h>

PUBLIC int epoll_ctl(int set, int how, int fd, struct epoll_event *event)
{
    struct waiting w;
    if (!has_queue_numbers() || !is_queue_number(fd)) return libc()->epoll_ctl(set, how, fd, event);
    begin_wait(&w, NULL);
    if (how != EPOLL_CTL_DEL && event) name_for_epoll(&w, fd, set, event->events);
    finish_looks(&w);
    int r = libc()->epoll_ctl(set, how, fd, event);
    if (r == 0 && how != EPOLL_CTL_MOD) count_set(fd, how == EPOLL_CTL_ADD ? 1 : -1);
    end_wait(&w);
    return r;
}

struct awaited { int set; struct epoll_event *events; int most, ms; const struct timespec *end; };

static int system_wait(void *arg, const sigset_t *mask)
{
    struct awaited *a = arg;
    return libc()->epoll_pwait(a->set, a->events, a->most, a->ms, mask);
}

static int system_wait_until(void *arg, const sigset_t *mask)
{
    struct awaited *a = arg;
    return libc()->epoll_pwait2(a->set, a->events, a->most, a->end, mask);
}

static void name_all(struct waiting *w, int set, const struct timespec *end)
{
    begin_wait(w, end);
    w->is_look = 0;   /* event loops do that often, and sets may have many queues */
    name_epoll_queues(w, set);
    finish_looks(w);
}

PUBLIC int epoll_pwait(int set, struct epoll_event *events, int most, int ms, const sigset_t *mask)
{
    struct waiting w;
    struct awaited a = { set, events, most, ms, NULL };
    struct timespec end = { ms / 1000, ms % 1000 * 1000000L };
    if (!has_epoll_queues()) return libc()->epoll_pwait(set, events, most, ms, mask);
    name_all(&w, set, ms < 0 ? NULL : &end);
    return wait_with(&w, system_wait, &a, mask);
}

PUBLIC int epoll_wait(int set, struct epoll_event *events, int most, int ms)
{
    return has_epoll_queues() ? epoll_pwait(set, events, most, ms, NULL) : libc()->epoll_wait(set, events, most, ms);
}

PUBLIC int epoll_pwait2(int set, struct epoll_event *events, int most, const struct timespec *end, const sigset_t *mask)
{
    struct waiting w;
    struct awaited a = { set, events, most, 0, end };
    if (!libc()->epoll_pwait2) return fail(ENOSYS);
    if (!has_epoll_queues()) return libc()->epoll_pwait2(set, events, most, end, mask);
    name_all(&w, set, end);
    return wait_with(&w, system_wait_until, &a, mask);
}
