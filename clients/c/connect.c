/* connect.c: how a connection begins and ends. */
#include "again.h"

#include <errno.h>
#include <fcntl.h>
#include <limits.h>
#include <netdb.h>
#include <netinet/in.h>
#include <netinet/tcp.h>
#include <poll.h>
#include <pwd.h>
#include <stdio.h>
#include <stdlib.h>
#include <string.h>
#include <sys/socket.h>
#include <sys/stat.h>
#include <sys/un.h>
#include <unistd.h>

/* ---- The address ---- */

struct place { char host[256], port[32]; };

/* HOST:PORT, or [HOST]:PORT. */
static int split(const char *address, struct place *place)
{
    const char *colon = strrchr(address, ':');
    if (!colon) return mqsi_fail(EINVAL);
    const char *host = address;
    size_t host_size = (size_t)(colon - address), port_size = strlen(colon + 1);
    if (host_size >= 2 && host[0] == '[' && host[host_size - 1] == ']') {
        host++;
        host_size -= 2;
    }
    if (host_size == 0 || host_size >= sizeof place->host || port_size == 0 || port_size >= sizeof place->port)
        return mqsi_fail(EINVAL);
    memcpy(place->host, host, host_size);
    place->host[host_size] = 0;
    memcpy(place->port, colon + 1, port_size + 1);
    return 0;
}

/* What stands behind unix-user:, or NULL: the user is known by the socket, and no key is wanted. */
static const char *behind_unix_user(const char *address)
{
    static const char front[] = "unix-user:";
    return strncmp(address, front, sizeof front - 1) ? NULL : address + sizeof front - 1;
}

/* The socket of the process's user: in a folder it has the user's name, and anything else is the socket itself. */
static int find_own(const char *place, char *path, size_t room)
{
    struct stat found;
    if (stat(place, &found) < 0) return errno == ENOENT ? mqsi_fail(ECONNREFUSED) : -1;
    if (!S_ISDIR(found.st_mode)) return snprintf(path, room, "%s", place) < (int)room ? 0 : mqsi_fail(EINVAL);
    char text[4096];
    struct passwd entry, *user;
    int error = getpwuid_r(getuid(), &entry, text, sizeof text, &user);
    if (error == ENOENT || error == ESRCH) user = NULL;   /* no file of users, or no entry, as C libraries also say it */
    else if (error) return mqsi_fail(error);
    if (!user) return mqsi_fail(ENXIO);
    return snprintf(path, room, "%s/%s", place, user->pw_name) < (int)room ? 0 : mqsi_fail(EINVAL);
}

/* ---- The socket ---- */

static int64_t ms_left(const struct timespec *end)
{
    struct timespec now;
    clock_gettime(CLOCK_MONOTONIC, &now);
    return (end->tv_sec - now.tv_sec) * INT64_C(1000) + (end->tv_nsec - now.tv_nsec) / 1000000;
}

/* How a connect that goes on has ended. */
static int await_connect(int fd, int bound_ms, const struct timespec *end)
{
    for (;;) {
        int64_t left = bound_ms > 0 ? ms_left(end) : -1;
        if (bound_ms > 0 && left <= 0) return mqsi_fail(ETIMEDOUT);
        struct pollfd p = { fd, POLLOUT, 0 };
        int n = poll(&p, 1, left > INT_MAX ? INT_MAX : (int)left);
        if (n < 0 && errno != EINTR) return -1;
        if (n <= 0) continue;
        int error = 0;
        socklen_t size = sizeof error;
        if (getsockopt(fd, SOL_SOCKET, SO_ERROR, &error, &size) < 0) return -1;
        return error ? mqsi_fail(error) : 0;
    }
}

static void close_quietly(int fd)
{
    int error = errno;
    close(fd);
    errno = error;
}

/* A connect to a port of this machine at which nobody listens may get that port for its own end, and is then connected to itself. */
static int is_own_end(int fd)
{
    struct sockaddr_storage own = { 0 }, peer = { 0 };
    socklen_t own_size = sizeof own, peer_size = sizeof peer;
    if (getsockname(fd, (struct sockaddr *)&own, &own_size) < 0 || getpeername(fd, (struct sockaddr *)&peer, &peer_size) < 0) return 0;
    return own_size == peer_size && !memcmp(&own, &peer, own_size);
}

/* Connects while the socket doesn't block, so that the bound holds, and then makes it block: a wait for an answer without
 * a moment is a recv, which a signal restarts or ends as its handler says. */
static int connect_to(const struct addrinfo *one, int bound_ms, const struct timespec *end)
{
    int fd = socket(one->ai_family, one->ai_socktype | SOCK_CLOEXEC | SOCK_NONBLOCK, one->ai_protocol);
    if (fd < 0) return -1;
    int r = connect(fd, one->ai_addr, one->ai_addrlen);
    if (r < 0 && (errno == EINPROGRESS || errno == EINTR)) r = await_connect(fd, bound_ms, end);
    if (r == 0 && is_own_end(fd)) r = mqsi_fail(ECONNREFUSED);
    if (r == 0) r = fcntl(fd, F_SETFL, 0);
    if (r == 0) return fd;
    close_quietly(fd);
    return -1;
}

static struct timespec end_of(int bound_ms)
{
    struct timespec end;
    clock_gettime(CLOCK_MONOTONIC, &end);
    end.tv_sec += bound_ms / 1000;
    end.tv_nsec += bound_ms % 1000 * 1000000L;
    return end;
}

/* Where many connections wait already, a connect to a path waits as long as a send may. */
static int connect_within(int fd, const struct sockaddr_un *at, int bound_ms, const struct timespec *end)
{
    struct timeval unbounded = { 0, 0 };
    for (;;) {
        int64_t left = bound_ms > 0 ? ms_left(end) : 0;
        if (bound_ms > 0 && left <= 0) return mqsi_fail(ETIMEDOUT);
        struct timeval bound = { left / 1000, left % 1000 * 1000 };
        setsockopt(fd, SOL_SOCKET, SO_SNDTIMEO, &bound, sizeof bound);
        if (connect(fd, (const struct sockaddr *)at, sizeof *at) == 0)
            return setsockopt(fd, SOL_SOCKET, SO_SNDTIMEO, &unbounded, sizeof unbounded);
        if (errno == EAGAIN) return mqsi_fail(ETIMEDOUT);
        if (errno == ENOENT) return mqsi_fail(ECONNREFUSED);   /* an open's own ENOENT speaks of a name */
        if (errno != EINTR) return -1;
    }
}

static int dial_path(const char *path, int bound_ms, struct timespec *end)
{
    struct sockaddr_un at = { .sun_family = AF_UNIX };
    size_t size = strlen(path);
    if (size == 0 || size >= sizeof at.sun_path) return mqsi_fail(EINVAL);
    memcpy(at.sun_path, path, size);
    int fd = socket(AF_UNIX, SOCK_STREAM | SOCK_CLOEXEC, 0);
    *end = end_of(bound_ms);
    if (fd < 0 || connect_within(fd, &at, bound_ms, end) == 0) return fd;
    close_quietly(fd);
    return -1;
}

static int is_own_user(uid_t user) { return user == 0 || user == getuid() || user == geteuid(); }

/* Whether the peer may have a key: a process of root's or the user's own, or of the socket's owner in a folder to which nobody else writes.
 * In other folders any user may have put the socket there. */
static int is_trusted(int fd, const char *path)
{
    struct ucred peer;
    struct stat file, folder;
    char place[sizeof ((struct sockaddr_un *)NULL)->sun_path];
    socklen_t size = sizeof peer;
    const char *slash = strrchr(path, '/');
    if (getsockopt(fd, SOL_SOCKET, SO_PEERCRED, &peer, &size) < 0) return 0;
    if (is_own_user(peer.uid)) return 1;
    snprintf(place, sizeof place, "%.*s", slash == path ? 1 : slash ? (int)(slash - path) : 1, slash ? path : ".");
    if (stat(path, &file) < 0 || stat(place, &folder) < 0) return 0;
    return file.st_uid == peer.uid && !(folder.st_mode & (S_IWGRP | S_IWOTH));
}

static int dial_trusted(const char *path, int bound_ms, struct timespec *end)
{
    int fd = dial_path(path, bound_ms, end);
    if (fd < 0 || is_trusted(fd, path)) return fd;
    close(fd);
    return mqsi_fail(EACCES);
}

static int dial_own(const char *place, int bound_ms, struct timespec *end)
{
    char path[sizeof ((struct sockaddr_un *)NULL)->sun_path];
    return find_own(place, path, sizeof path) < 0 ? -1 : dial_path(path, bound_ms, end);
}

/* EINVAL is an open's word for a bad name of a queue. */
static int error_of_look_up(int problem)
{
    switch (problem) {
    case EAI_SYSTEM: return errno;
    case EAI_MEMORY: return ENOMEM;
    case EAI_AGAIN: return EAGAIN;
    case EAI_SERVICE: return EINVAL;
    default: return EHOSTUNREACH;
    }
}

/* The bound begins after the look-up of a name, and `end` is when it ends. */
static int dial(const char *address, int bound_ms, struct timespec *end)
{
    struct place place;
    const char *own = behind_unix_user(address);
    if (own) return dial_own(own, bound_ms, end);
    if (!strncmp(address, "unix:", 5)) return dial_trusted(address + 5, bound_ms, end);
    if (split(address, &place) < 0) return -1;
    struct addrinfo hints = { .ai_socktype = SOCK_STREAM }, *all;
    int problem = getaddrinfo(place.host, place.port, &hints, &all);
    if (problem) return mqsi_fail(error_of_look_up(problem));
    *end = end_of(bound_ms);
    int fd = -1;
    for (struct addrinfo *one = all; one && fd < 0; one = one->ai_next) fd = connect_to(one, bound_ms, end);
    int error = errno;
    freeaddrinfo(all);
    errno = error;
    return fd;
}

/* ---- The session ---- */

static int say_hello(struct mqs *c, const char *key, struct answer *a)
{
    struct request hello = mqsi_request(HELLO);
    if (mqsi_put_text(&hello, key) < 0) return mqsi_fail(EINVAL);
    return mqsi_ask(c, &hello, a, STARTED);
}

/* Without a key the server has said the hello itself. */
static int start(struct mqs *c, const char *key)
{
    struct answer a;
    int r;
    if (key) r = say_hello(c, key, &a);
    else if ((r = mqsi_await_front(c, mqsi_deadline(c))) == 0) r = mqsi_take(c, &a, STARTED);
    if (r < 0) {
        /* A busy server lets clients connect, and is silent until a worker is free. */
        if (c->lost == ECONNABORTED) errno = ETIMEDOUT;
        return -1;
    }
    c->session = mqsi_get(a.fields, 8);
    return 0;
}

static int is_peer_here(int fd)
{
    struct sockaddr_storage peer = { .ss_family = AF_UNSPEC };
    socklen_t size = sizeof peer;
    return getpeername(fd, (struct sockaddr *)&peer, &size) == 0 && mqsi_is_here((const struct sockaddr *)&peer);
}

/* A wait for an answer is a recv. */
static void make_it_block(int fd)
{
    int flags = fcntl(fd, F_GETFL);
    if (flags >= 0 && (flags & O_NONBLOCK)) fcntl(fd, F_SETFL, flags & ~O_NONBLOCK);
}

/* A server's machine that vanished is found while a call waits, as the server finds a client's: after two minutes. None of this succeeds
 * if the socket isn't TCP, which is no matter. */
static void probe(int fd)
{
    int on = 1, idle = 60, every = 10, times = 6;
    setsockopt(fd, SOL_SOCKET, SO_KEEPALIVE, &on, sizeof on);
    setsockopt(fd, IPPROTO_TCP, TCP_KEEPIDLE, &idle, sizeof idle);
    setsockopt(fd, IPPROTO_TCP, TCP_KEEPINTVL, &every, sizeof every);
    setsockopt(fd, IPPROTO_TCP, TCP_KEEPCNT, &times, sizeof times);
}

static struct mqs *attach(int fd, const char *key, int answer_ms, int hello_ms)
{
    struct mqs *c = calloc(1, sizeof *c);
    if (!c) {
        close_quietly(fd);
        errno = ENOMEM;
        return NULL;
    }
    c->fd = fd;
    c->mask = -1;
    c->bound_ms = hello_ms;
    c->shares_clock = is_peer_here(fd);
    make_it_block(fd);
    int one = 1;
    setsockopt(fd, IPPROTO_TCP, TCP_NODELAY, &one, sizeof one);   /* fails where it isn't TCP, which is no matter */
    probe(fd);
    if (start(c, key) == 0) {
        c->bound_ms = answer_ms;
        return c;
    }
    int error = errno;
    mqs_disconnect(c);
    errno = error;
    return NULL;
}

struct mqs *mqs_attach(int fd, const char *key, int answer_ms) { return attach(fd, key, answer_ms, answer_ms); }

/* What it takes to connect again. */
static int keep_place(struct mqs *c, const char *address, const char *key)
{
    size_t size = strlen(address) + 1, key_size = key ? strlen(key) + 1 : 0;
    c->address = malloc(size + key_size);
    if (!c->address) return -1;
    memcpy(c->address, address, size);
    if (key) c->key = memcpy(c->address + size, key, key_size);
    return 0;
}

struct mqs *mqs_connect(const char *address, const char *key, int answer_ms)
{
    if (behind_unix_user(address)) key = NULL;
    else if (!key) {
        errno = EINVAL;
        return NULL;
    }
    struct timespec end;
    int fd = dial(address, answer_ms, &end);
    if (fd < 0) return NULL;
    int64_t left = answer_ms > 0 ? ms_left(&end) : 0;
    struct mqs *c = attach(fd, key, answer_ms, answer_ms > 0 && left <= 0 ? 1 : (int)left);
    if (!c || keep_place(c, address, key) == 0) return c;
    mqs_disconnect(c);
    errno = ENOMEM;
    return NULL;
}

void mqs_disconnect(struct mqs *c)
{
    if (!c) return;
    if (c->fd >= 0) close(c->fd);
    mqsi_end_again(c);
    free(c->in);
    free(c);
}

int mqs_move_fd(struct mqs *c, int least)
{
    int fd = fcntl(c->fd, F_DUPFD_CLOEXEC, least);
    if (fd < 0) return -1;
    close(c->fd);
    c->fd = fd;
    return 0;
}

int mqs_version(void) { return MQS_VERSION_NUMBER; }
int mqs_fd(const struct mqs *c) { return c->fd; }
void mqs_set_bound(struct mqs *c, int answer_ms) { c->bound_ms = answer_ms; }
uint64_t mqs_session(const struct mqs *c) { return c->session; }
int mqs_lost(const struct mqs *c) { return c->lost; }
int mqs_rule(const struct mqs *c) { return c->rule; }
