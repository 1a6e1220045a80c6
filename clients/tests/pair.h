/* pair.h: a connection to the other end of a pair of sockets, where the test is the server. */
#ifndef PAIR_H
#define PAIR_H

#include "../c/connection.h"

#include <errno.h>
#include <pthread.h>
#include <stdio.h>
#include <stdlib.h>
#include <string.h>
#include <unistd.h>

enum { BOUND_MS = 200, LONG_MS = 20000, LATE_S = 10 };   /* LATE_S: how much later a busy machine may be */

static int checks, faults;
static int server;              /* the server's end */

#define CHECK(condition) do { \
        checks++; \
        if (!(condition)) { \
            faults++; \
            printf("line %d: not so: %s (errno %s)\n", __LINE__, #condition, strerrorname_np(errno)); \
        } \
    } while (0)

static const uint8_t started[] = { 0, 0, 0, 9, STARTED, 0, 0, 0, 0, 0, 0, 0, 5 };

static void put(const void *bytes, size_t size)
{
    if (write(server, bytes, size) != (ssize_t)size) abort();
}

static struct mqs *fresh(void)
{
    int ends[2];
    if (socketpair(AF_UNIX, SOCK_STREAM, 0, ends) < 0) abort();
    server = ends[1];
    put(started, sizeof started);
    struct mqs *c = mqs_attach(ends[0], "key", BOUND_MS);
    if (!c) abort();
    return c;
}

static void end(struct mqs *c)
{
    mqs_disconnect(c);
    close(server);
}

static double seconds(void)
{
    struct timespec t;
    clock_gettime(CLOCK_MONOTONIC, &t);
    return (double)t.tv_sec + (double)t.tv_nsec / 1e9;
}

static struct timespec in_ms(long ms)
{
    struct timespec t;
    clock_gettime(CLOCK_REALTIME, &t);
    t.tv_nsec += ms * 1000000;
    t.tv_sec += t.tv_nsec / 1000000000;
    t.tv_nsec %= 1000000000;
    return t;
}

/* Answers after a while, as a thread. */
struct later { const void *bytes; size_t size; int after_ms; };

__attribute__((unused)) static void *answer_later(void *arg)
{
    const struct later *l = arg;
    usleep((useconds_t)l->after_ms * 1000);
    put(l->bytes, l->size);
    return NULL;
}

#endif
