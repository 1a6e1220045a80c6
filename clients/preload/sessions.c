/* sessions.c: home, and the sides for calls that block. Who calls these has the lock. */
#include "watch.h"

#include <errno.h>
#include <stdlib.h>
#include <string.h>
#include <sys/epoll.h>
#include <sys/socket.h>
#include <sys/stat.h>
#include <unistd.h>

enum { SIDE_MS = 1000, PAUSE_S = 5 };

struct side sides[SIDES_MAX];
int away_from_home;
static time_t widen_after;      /* the server had no worker free a moment ago */
static int has_said;            /* that no connection can be had: once, and not at each call */
static int late_count;
static deadline lost_at;        /* when home was lost last; 0: never */

/* ---- Sockets ---- */

static void install(int side, struct mqs *c)
{
    struct stat file = { 0 };
    struct side *s = &sides[side];
    fstat(mqs_fd(c), &file);
    s->connection = c;
    s->device = file.st_dev;
    s->inode = file.st_ino;
    c->wait = wait_for_answer;
    c->is_checked = 1;
}

/* Whether the side's socket is still its own: a program may close all files from a number on, and have its own there by now. Then it isn't
 * touched any more. */
int has_socket(int side)
{
    struct stat file;
    struct side *s = &sides[side];
    if (s->connection->fd < 0) return 0;
    if (fstat(s->connection->fd, &file) == 0 && file.st_dev == s->device && file.st_ino == s->inode) return 1;
    s->connection->fd = -1;
    mqsi_lose(s->connection, ECONNRESET);
    return 0;
}

static void close_signals(struct side *s)
{
    struct stat one, other;
    int fd = epoll_create1(EPOLL_CLOEXEC);   /* its file has the same inode */
    if (fd < 0) return;
    if (fstat(s->signals, &one) == 0 && fstat(fd, &other) == 0 && one.st_ino == other.st_ino && one.st_dev == other.st_dev)
        close(s->signals);
    close(fd);
}

/* ---- Descriptions that are closed later ---- */

/* Without memory for it, it stays open until the session ends. */
void close_later(int side, int family, uint64_t description)
{
    struct late *late = malloc(sizeof *late);
    if (!late) return;
    *late = (struct late){ sides[side].late, family, description };
    sides[side].late = late;
    late_count++;
}

static int take_late(int side, struct late *taken)
{
    struct late *late = sides[side].late;
    if (!late) return 0;
    if (taken) *taken = *late;
    sides[side].late = late->next;
    late_count--;
    free(late);
    return 1;
}

static void close_late_of(int side)
{
    struct late late;
    while (take_late(side, &late)) close_at(side, late.family, late.description);
}

/* Home's, and those of sides that are free. */
void close_late(void)
{
    if (!late_count) return;
    for (int i = HOME; i <= settings.sides; i++) {
        if (!sides[i].connection || (i != HOME && sides[i].busy)) continue;
        sides[i].busy = 1;
        close_late_of(i);
        if (i != HOME) sides[i].busy = 0;
    }
}

/* ---- The end of a session ---- */

/* Closes the side's files. A child of fork leaves the memory alone: another thread may have been using it. */
void forget_side(int side, int in_child)
{
    struct side *s = &sides[side];
    struct mqs *c = s->connection;
    int is_asked = side == HOME && s->busy;
    while (!in_child && take_late(side, NULL)) {}
    if (in_child) late_count = 0;
    if (s->signals > 0) close_signals(s);
    if (c && has_socket(side)) close(c->fd);
    if (c) {
        c->fd = -1;
        mqsi_lose(c, ECONNRESET);
    }
    if (c && !in_child) {
        if (c->away && c->away->is_left && c->away->started == MQ_RECEIVE && settings.reconnect) count_receive(NULL);
        if (c->away) mqsi_end_away(c->away);
        mqs_disconnect(c);
    }
    *s = (struct side){ .busy = is_asked };
}

static void forget(struct object *o, int side)
{
    if (side == HOME) {
        if (o->at[HOME] != NO_DESCRIPTION) lose(o);
        give_last_notice(o);
    }
    o->at[side] = NO_DESCRIPTION;
}

void end_side(int side)
{
    struct object *left = sides[side].left;
    if (left && sides[side].operation == RECEIVES && settings.reconnect) count_receive(left);
    forget_side(side, 0);
    for_each_object(forget, side);
    if (side == HOME) lost_at = mqsi_now();
    if (!left) return;
    left_count--;
    left->calls--;
    drop(left);
}

/* With home the sides end too: what is open on them is of no use any more. */
static void end_all(void)
{
    for (int i = HOME; i <= settings.sides; i++)
        if (sides[i].connection && (i == HOME || !sides[i].busy || sides[i].left)) end_side(i);
}

/* ---- New sessions ---- */

/* The session's mask is 0: the program's own is taken off before a mode is sent. */
static struct mqs *connect_anew(int hello_ms)
{
    struct mqs *c = mqs_connect(settings.address, settings.key, hello_ms);
    if (!c) return NULL;
    if (mqs_umask(c, 0) < 0) {   /* within the bound of a hello */
        int error = errno;
        mqs_disconnect(c);
        errno = error;
        return NULL;
    }
    mqs_set_bound(c, settings.answer_ms);
    if (settings.shared_clock >= 0) mqs_set_shared_clock(c, settings.shared_clock);
    mqs_move_fd(c, FIRST_FD);
    return c;
}

static int at_most(int ms, int64_t most) { return most < 1 ? 1 : most < ms ? (int)most : ms; }

/* Others ask home meanwhile, and signals are let in. A child that a handler made has the same socket: it connects by itself. */
static struct mqs *dial(int hello_ms)
{
    struct entry *e = innermost();
    struct mqs *c = NULL;
    unsigned before;
    if (!settings.key) {
        errno = EACCES;
        return NULL;
    }
    do {
        mqs_disconnect(c);
        before = forks;
        if (e && e->may_end && e->end < INT64_MAX) hello_ms = at_most(hello_ms, (e->end - mqsi_now()) / 1000000);
        if (e && e->tries.end > 0) hello_ms = at_most(hello_ms, (e->tries.end - mqsi_now()) / 1000000);
        if (e && e->has_home) step_out(e);
        c = connect_anew(hello_ms);
        if (e && !e->has_home) step_in(e);
    } while (before != forks);
    return c;
}

/* A lost one stays as long as calls go on with it. Where calls go on after a restart, it is seen to be lost before a request goes out. */
struct mqs *home(void)
{
    struct side *s = &sides[HOME];
    if (s->connection && settings.reconnect) mqsi_look_for_end(s->connection);
    if (s->connection && mqs_lost(s->connection) && !away_from_home) end_all();
    if (s->connection) return s->connection;
    struct mqs *c = dial(settings.hello_ms);
    if (s->connection) mqs_disconnect(c);   /* another thread was first */
    else if (c) install(HOME, c);
    if (c && settings.reconnect) widen_after = 0;
    if (!s->connection && !has_said) say(settings.address, strerror(errno));
    has_said = !s->connection;
    return s->connection;
}

/* Whether the server has ended it, which no call has seen yet. */
static int has_ended(struct mqs *c)
{
    char byte;
    ssize_t n = recv(mqs_fd(c), &byte, 1, MSG_PEEK | MSG_DONTWAIT);
    return n == 0 || (n < 0 && errno != EAGAIN && errno != EINTR);
}

/* For an open: a home that the server has ended is seen to be lost before the request goes out. */
struct mqs *home_for_open(void)
{
    struct mqs *c = sides[HOME].connection;
    if (c && !mqs_lost(c) && has_ended(c)) mqsi_lose(c, ECONNRESET);
    return home();
}

deadline home_lost_at(void) { return lost_at; }

void look_at_home(void)
{
    if (sides[HOME].connection) has_socket(HOME);
}

static int is_free(int side)
{
    if (!sides[side].connection || sides[side].busy) return 0;
    if (has_socket(side) && settings.reconnect) mqsi_look_for_end(sides[side].connection);
    if (!mqs_lost(sides[side].connection)) return 1;
    end_side(side);
    return 0;
}

/* A new side, or 0. It is waited for but shortly, since the call waits meanwhile. */
int widen(void)
{
    struct timespec now;
    int side = HOME + 1;
    clock_gettime(CLOCK_MONOTONIC, &now);
    while (side <= settings.sides && (sides[side].connection || sides[side].busy)) side++;
    if (now.tv_sec < widen_after || side > settings.sides) return 0;
    unsigned before = forks;
    sides[side].busy = 1;
    struct mqs *c = dial(SIDE_MS);
    if (before == forks) sides[side].busy = 0;
    if (c) install(side, c);
    else widen_after = now.tv_sec + PAUSE_S;
    return c ? side : 0;
}

/* A side that is free and has the object open already, or 0. */
int open_side(struct object *o)
{
    for (int i = HOME + 1; i <= settings.sides; i++)
        if (o->at[i] != NO_DESCRIPTION && is_free(i)) return i;
    return 0;
}

/* A side that is free and has the object open, or 0. */
int side_for(struct object *o)
{
    int side = open_side(o);
    if (side || o->gone) return side;
    for (int i = HOME + 1; i <= settings.sides && !side; i++)
        if (is_free(i)) side = i;
    if (!side) side = widen();
    return side && bring(o, side) == 0 ? side : 0;
}

/* Opens the object on the spare sides too, so that calls can block on it after an unlink. */
void spread(struct object *o)
{
    for (int i = HOME + 1; i <= settings.spares; i++) {
        if (!sides[i].connection && (sides[i].busy || widen() != i)) return;
        if (is_free(i)) bring(o, i);
    }
}

int close_at(int side, int family, uint64_t description)
{
    struct mqs *c = sides[side].connection;
    return family == MQS_QUEUES ? mqs_mq_close(c, description) : mqs_sem_close(c, description);
}

void free_side(int side)
{
    struct side *s = &sides[side];
    close_late_of(side);
    s->busy = 0;
    if (mqs_lost(s->connection)) end_side(side);
}

/* One besides home and the sides, or NULL. */
struct mqs *dial_another(void) { return dial(SIDE_MS); }
