/* poll.c: poll, ppoll, select and pselect. Each passes on to the C library's. If there are queues among its numbers it first names them
 * (watches.c), and keeps signals out until the system's call lets them in: so a signal that comes meanwhile ends the call, as it would
 * without the library. */
#include "watch.h"

#include <sys/resource.h>
#include <sys/select.h>

/* ---- poll ---- */

/* The system refuses more numbers than a process may have. */
static int polls_queues(struct pollfd *fds, nfds_t count)
{
    struct rlimit most;
    if (!has_queue_numbers() || !fds || getrlimit(RLIMIT_NOFILE, &most) < 0 || count > most.rlim_cur) return 0;
    for (nfds_t i = 0; i < count; i++)
        if (is_queue_number(fds[i].fd)) return 1;
    return 0;
}

struct polled { struct pollfd *fds; nfds_t count; const struct timespec *end; };

static int system_poll(void *arg, const sigset_t *mask)
{
    struct polled *p = arg;
    return libc()->ppoll(p->fds, p->count, p->end, mask);
}

static int poll_queues(struct pollfd *fds, nfds_t count, const struct timespec *end, const sigset_t *mask)
{
    struct waiting w;
    struct polled p = { fds, count, end };
    begin_wait(&w, end);
    for (nfds_t i = 0; i < count; i++)
        if (is_queue_number(fds[i].fd)) name_queue(&w, fds[i].fd, fds[i].events);
    finish_looks(&w);
    return wait_with(&w, system_poll, &p, mask);
}

PUBLIC int poll(struct pollfd *fds, nfds_t count, int ms)
{
    if (!polls_queues(fds, count)) return libc()->poll(fds, count, ms);
    struct timespec end = { ms / 1000, ms % 1000 * 1000000L };
    return poll_queues(fds, count, ms < 0 ? NULL : &end, NULL);
}

PUBLIC int ppoll(struct pollfd *fds, nfds_t count, const struct timespec *end, const sigset_t *mask)
{
    return polls_queues(fds, count) ? poll_queues(fds, count, end, mask) : libc()->ppoll(fds, count, end, mask);
}

/* glibc's headers call these in place of the two above if _FORTIFY_SOURCE is set. */
PUBLIC int __poll_chk(struct pollfd *fds, nfds_t count, int ms, size_t size);
PUBLIC int __poll_chk(struct pollfd *fds, nfds_t count, int ms, size_t size)
{
    return polls_queues(fds, count) ? poll(fds, count, ms) : libc()->__poll_chk(fds, count, ms, size);
}

PUBLIC int __ppoll_chk(struct pollfd *fds, nfds_t count, const struct timespec *end, const sigset_t *mask, size_t size);
PUBLIC int __ppoll_chk(struct pollfd *fds, nfds_t count, const struct timespec *end, const sigset_t *mask, size_t size)
{
    return polls_queues(fds, count) ? ppoll(fds, count, end, mask) : libc()->__ppoll_chk(fds, count, end, mask, size);
}

/* ---- select ---- */

enum { BITS = 8 * sizeof(unsigned long) };

struct selected { int count; fd_set *reads, *writes, *others; const struct timespec *end; };

/* A set may be larger than an fd_set. */
static int has(const fd_set *set, int fd)
{
    const unsigned long *words = (const void *)set;
    return words && (words[fd / BITS] >> (fd % BITS) & 1);
}

static short selected_events(const struct selected *s, int fd)
{
    return (short)((has(s->reads, fd) ? POLLIN : 0) | (has(s->writes, fd) ? POLLOUT : 0));
}

/* The first number of a queue from fd on, or -1. */
static int next_selected(const struct selected *s, int fd)
{
    for (; fd < s->count && fd < QUEUES_MAX; fd++)
        if (selected_events(s, fd) && is_queue_number(fd)) return fd;
    return -1;
}

static int selects_queues(const struct selected *s) { return has_queue_numbers() && next_selected(s, 0) >= 0; }

static int system_select(void *arg, const sigset_t *mask)
{
    struct selected *s = arg;
    return libc()->pselect(s->count, s->reads, s->writes, s->others, s->end, mask);
}

static int select_queues(struct selected *s, const sigset_t *mask)
{
    struct waiting w;
    begin_wait(&w, s->end);
    for (int fd = next_selected(s, 0); fd >= 0; fd = next_selected(s, fd + 1)) name_queue(&w, fd, selected_events(s, fd));
    finish_looks(&w);
    return wait_with(&w, system_select, s, mask);
}

PUBLIC int pselect(int count, fd_set *reads, fd_set *writes, fd_set *others, const struct timespec *end, const sigset_t *mask)
{
    struct selected s = { count, reads, writes, others, end };
    return selects_queues(&s) ? select_queues(&s, mask) : libc()->pselect(count, reads, writes, others, end, mask);
}

/* As Linux does, select leaves the rest of the time there. */
static void leave_rest(struct timeval *time, const struct timespec *end, const struct timespec *began)
{
    struct timespec now;
    clock_gettime(CLOCK_MONOTONIC, &now);
    int64_t rest = (end->tv_sec - (now.tv_sec - began->tv_sec)) * INT64_C(1000000000) + end->tv_nsec - (now.tv_nsec - began->tv_nsec);
    if (rest < 0) rest = 0;
    *time = (struct timeval){ rest / 1000000000, rest % 1000000000 / 1000 };
}

PUBLIC int select(int count, fd_set *reads, fd_set *writes, fd_set *others, struct timeval *time)
{
    struct selected s = { count, reads, writes, others, NULL };
    int is_odd = time && (time->tv_sec < 0 || time->tv_usec < 0);
    if (is_odd || !selects_queues(&s)) return libc()->select(count, reads, writes, others, time);
    struct timespec began, end;
    clock_gettime(CLOCK_MONOTONIC, &began);
    if (time) {
        end = (struct timespec){ time->tv_sec + time->tv_usec / 1000000, time->tv_usec % 1000000 * 1000 };
        s.end = &end;
    }
    int r = select_queues(&s, NULL);
    if (time) leave_rest(time, &end, &began);
    return r;
}
