/* readiness.c: the file of an mqd_t. At first it is an epoll file that looks at nothing: it is never ready, and a read of it never waits.
 * Once the program waits for the queue it is an eventfd, whose counter has a queue's three states: 0 can only be written, as an empty
 * queue; 2^64 - 2 can only be read, as a full one; between these it can be both. */
#include "watch.h"

#include <errno.h>
#include <fcntl.h>
#include <sys/eventfd.h>
#include <sys/syscall.h>
#include <sys/uio.h>
#include <unistd.h>

/* A signal for F_SETSIG, which the system uses only with O_ASYNC. No other file has this one. */
enum { MARK = 64 };

/* The mark tells an mqd_t from a number that the program has closed by close, and that another file has now. */
int mark_number(int fd) { return fcntl(fd, F_SETSIG, MARK); }
int is_marked(int fd) { return fcntl(fd, F_GETSIG) == MARK; }

/* One of the library's own, which has the mark too. */
int new_eventfd(int is_nonblock)
{
    int fd = eventfd(0, EFD_CLOEXEC | (is_nonblock ? EFD_NONBLOCK : 0));
    int moved = fd < 0 ? -1 : fcntl(fd, F_DUPFD_CLOEXEC, FIRST_FD);
    if (moved >= 0) {
        close(fd);
        fd = moved;
    }
    if (fd < 0 || mark_number(fd) == 0) return fd;
    close(fd);
    return -1;
}

/* Gives the number an eventfd in place of its file. The result is a second number of it, which the library keeps, or -1. */
int make_pollable(int fd)
{
    int flags = fcntl(fd, F_GETFL), number_flags = fcntl(fd, F_GETFD);
    if (flags < 0 || !is_marked(fd)) return fail(EBADF);
    int own = new_eventfd(flags & O_NONBLOCK);
    if (own < 0 || dup3(own, fd, number_flags & FD_CLOEXEC ? O_CLOEXEC : 0) == fd) return own;
    int error = errno;
    close(own);
    return fail(error);
}

/* Sets the counter to 0. It never waits. */
static void drain(int own)
{
    uint64_t count;
    struct iovec io = { &count, sizeof count };
    if (syscall(SYS_preadv2, own, &io, 1, -1L, -1L, RWF_NOWAIT) >= 0 || errno == EAGAIN) return;
    struct pollfd p = { own, POLLIN, 0 };   /* an older kernel */
    if (libc()->poll(&p, 1, 0) == 1 && read(own, &count, sizeof count) < 0) return;
}

short events_of(uint32_t messages, uint32_t room)
{
    return (short)((messages > 0 ? POLLIN : 0) | (messages < room ? POLLOUT : 0));
}

/* Sets the counter to that state. It first looks at the counter, because after a fork another process may have changed it. If the queue is
 * neither empty nor full, news are written too: an edge-triggered epoll set then tells of it again, as on Linux. */
void show_state(int own, uint32_t messages, uint32_t room, int is_news)
{
    short wanted = events_of(messages, room);
    int is_between = wanted == (POLLIN | POLLOUT);
    uint64_t count = is_between ? 1 : UINT64_MAX - 1;
    struct pollfd now = { own, POLLIN | POLLOUT, 0 };
    if (libc()->poll(&now, 1, 0) < 0 || (now.revents == wanted && !(is_news && is_between))) return;
    if (!is_between || !(now.revents & POLLOUT)) drain(own);
    if ((wanted & POLLIN) && write(own, &count, sizeof count) < 0) return;
}
