/* fuzzed.h: what the programs of tests/fuzz_relayed share: chance, the program's own files, and how a call may end. */
#ifndef FUZZED_H
#define FUZZED_H

#include <errno.h>
#include <fcntl.h>
#include <signal.h>
#include <stdint.h>
#include <stdio.h>
#include <stdlib.h>
#include <string.h>
#include <sys/socket.h>
#include <sys/stat.h>
#include <sys/time.h>
#include <time.h>
#include <unistd.h>

enum { CALLS = 200, LONGEST_MS = 1200, BOUND_S = 8, OWN = 6, FIRST_OWN = 256, ROOM = 64 };

static uint64_t state;
static int findings;
static long served, failed;
static sigset_t mask_at_first;

/* splitmix64 */
static uint64_t draw(void)
{
    uint64_t z = state += UINT64_C(0x9e3779b97f4a7c15);
    z = (z ^ z >> 30) * UINT64_C(0xbf58476d1ce4e5b9);
    z = (z ^ z >> 27) * UINT64_C(0x94d049bb133111eb);
    return z ^ z >> 31;
}
static size_t below(size_t limit) { return (size_t)(draw() % limit); }

static double seconds(void)
{
    struct timespec t;
    clock_gettime(CLOCK_MONOTONIC, &t);
    return (double)t.tv_sec + (double)t.tv_nsec / 1e9;
}

static struct timespec in_ms(long ms)
{
    struct timespec t;
    clock_gettime(CLOCK_REALTIME, &t);
    t.tv_nsec += ms * 1000000;
    t.tv_sec += t.tv_nsec / 1000000000;
    t.tv_nsec %= 1000000000;
    return t;
}

static void find(const char *what, const char *call, long number)
{
    findings++;
    printf("found: %s: %s: %ld\n", call, what, number);
    fflush(stdout);
}

/* ---- The program's own files: pairs of sockets, some of the numbers that the libraries take too ---- */

static struct own { int ends[2]; struct stat facts[2]; } own[OWN];

static void open_own(struct own *o)
{
    if (socketpair(AF_UNIX, SOCK_STREAM | SOCK_CLOEXEC, 0, o->ends) < 0) abort();
    for (int i = 0; i < 2; i++) {
        if (below(2)) {
            int moved = fcntl(o->ends[i], F_DUPFD_CLOEXEC, FIRST_OWN);
            close(o->ends[i]);
            o->ends[i] = moved;
        }
        if (fstat(o->ends[i], &o->facts[i]) < 0) abort();
    }
}

static void close_own(struct own *o)
{
    close(o->ends[0]);
    close(o->ends[1]);
}

/* They are open, the same, and nobody wrote to them. */
static void check_own(const char *call)
{
    for (int i = 0; i < 2 * OWN; i++) {
        int end = own[i / 2].ends[i % 2];
        struct stat now, *then = &own[i / 2].facts[i % 2];
        char byte;
        if (fstat(end, &now) < 0) find("closed a file of the program's own", call, end);
        else if (now.st_dev != then->st_dev || now.st_ino != then->st_ino) find("put another file in the place of the program's own", call, end);
        else if (recv(end, &byte, 1, MSG_DONTWAIT | MSG_PEEK) >= 0 || errno != EAGAIN)
            find("wrote to a file of the program's own, or shut it down", call, end);
    }
}

/* ---- Calls ---- */

static int is_named(int error)
{
    static const int named[] = { EACCES, EAGAIN, EBADF, EBUSY, ECONNABORTED, ECONNREFUSED, ECONNRESET, EEXIST, EINTR, EINVAL, EMFILE,
                                 EMSGSIZE, ENAMETOOLONG, ENOENT, ENOSPC, EOVERFLOW, EPERM, EPROTO, ESRCH, ETIMEDOUT };
    for (size_t i = 0; i < sizeof named / sizeof *named; i++)
        if (error == named[i]) return 1;
    return 0;
}

static double began;

/* A call that began at `began`: it gave 0 to `most`, or -1 with an error that has a name, in time, and left files and mask alone. */
static long judge(const char *call, long result, long most)
{
    int error = errno;
    sigset_t mask;
    double took = seconds() - began;
    if (took > BOUND_S) find("milliseconds", call, (long)(took * 1e3));
    if (result < -1 || result > most) find("result", call, result);
    if (result == -1 && !is_named(error)) find("error", call, error);
    if (result == -1) failed++;
    else served++;
    check_own(call);
    pthread_sigmask(SIG_BLOCK, NULL, &mask);
    for (int number = 1; number <= SIGRTMAX; number++)
        if (sigismember(&mask, number) != sigismember(&mask_at_first, number)) find("left a signal's mask changed", call, number);
    errno = error;
    return result;
}
#define TRY(call, most) (began = seconds(), judge(#call, (long)(call), most))

static void ignore(int number) { (void)number; }

/* A signal every so often ends calls that wait without an end. */
static void ring_each(long ms)
{
    struct sigaction action = { .sa_handler = ignore };
    struct itimerval each = { { 0, ms * 1000 }, { 0, ms * 1000 } };
    sigaction(SIGALRM, &action, NULL);
    setitimer(ITIMER_REAL, &each, NULL);
}

static void begin(const char *seed)
{
    state = strtoull(seed, NULL, 10);
    setvbuf(stdout, NULL, _IOLBF, 0);
    pthread_sigmask(SIG_BLOCK, NULL, &mask_at_first);
    for (int i = 0; i < OWN; i++) open_own(&own[i]);
}

/* Between two calls: now and then the program closes files of its own and opens others, which get numbers that are free. */
static void renew_own(void)
{
    if (below(3)) return;
    struct own *o = &own[below(OWN)];
    close_own(o);
    open_own(o);
}

static int finish(void)
{
    for (int i = 0; i < OWN; i++) close_own(&own[i]);
    printf("calls: %ld served, %ld failed, %d findings\n", served, failed, findings);
    return findings != 0;
}
#endif
