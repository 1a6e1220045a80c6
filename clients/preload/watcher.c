/* watcher.c: the thread that looks at queues. When the program waits for messages, the watcher registers for a notice in a session of its
 * own. A notice comes exactly when a message comes to the empty queue, so the watcher looks once more after it has registered, and then
 * sleeps. It looks every LOOK_MS if another process has the registration, for room in a full queue, and for further messages if a set is
 * edge-triggered. If it can't open a queue, because the name is gone or there is no further session, it asks home every LOOK_MS. */
#include "watch.h"

#include <errno.h>
#include <limits.h>
#include <stdlib.h>
#include <string.h>
#include <sys/stat.h>
#include <unistd.h>

enum { LOOK_MS = 20, REGISTER_MS = 200, JOIN_MS = 5000, CONNECT_MS = 30000, CONNECT_AGAIN_MS = 500 };

/* The watcher's own. If the program has closed its numbers another watcher may begin before this one has seen it. */
static _Thread_local struct mqs *session;
static _Thread_local struct stat session_file;
static _Thread_local uint64_t session_number;   /* a description is of the session in which it was opened */
static _Thread_local int64_t connect_at;
static _Thread_local int64_t going_on_until;    /* since the session was lost */
static _Thread_local int has_lost;              /* the session, since the last sleep */

/* For a child of fork, under the lock of entry.c. */
static uint64_t sessions;
static int socket_number = -1;
static struct stat socket_file;

static int64_t now_ms(void)
{
    struct timespec t;
    clock_gettime(CLOCK_MONOTONIC, &t);
    return t.tv_sec * INT64_C(1000) + t.tv_nsec / 1000000;
}

/* ---- The session ---- */

static int is_open(const struct watch *w) { return session && w->session == session_number && w->description != NO_DESCRIPTION; }

/* The program may have closed the socket's number, for example by closefrom, and another file may have it now. */
static int is_file(int fd, const struct stat *file)
{
    struct stat now;
    return fstat(fd, &now) == 0 && now.st_ino == file->st_ino && now.st_dev == file->st_dev;
}

static int is_session_there(void) { return is_file(mqs_fd(session), &session_file); }

/* The next looks ask home, which shows whether the server is gone. */
static void lose_session(void)
{
    struct entry e;
    struct watch *w;
    hold(&e);   /* no fork meanwhile */
    if (is_session_there()) mqs_disconnect(session);
    session = NULL;
    socket_number = -1;
    let_go(&e);
    if (settings.reconnect) {
        connect_at = 0;
        going_on_until = now_ms() + settings.reconnect / 1000000;
    }
    for (int fd = 0; (w = next_watch(&fd));) {
        w->is_registered = 0;
        w->look_at = 0;
        if (settings.reconnect) w->join_at = 0;
    }
    has_lost = 1;
}

static void on_notice(uint64_t description)
{
    struct watch *w;
    for (int fd = 0; (w = next_watch(&fd));) {
        if (!is_open(w) || w->description != description) continue;
        w->is_registered = 0;
        report(w, 1, wish_of(w, 0).room);
        return;
    }
}

static void take_all(void)
{
    int what, there = 0;
    uint64_t description;
    while (session && (there = mqs_next_unasked(session, &what, &description)) == 1)
        if (what == MQS_NOTICE) on_notice(description);
    if (there < 0) lose_session();
}

/* After an answer: takes the notices that came before it. A notice of the queue that the answer is about is older than the answer. */
static void take_earlier(struct watch *answered)
{
    int what;
    uint64_t description;
    while (mqsi_kept(session) > 0 && mqs_next_unasked(session, &what, &description) == 1) {
        if (what != MQS_NOTICE) continue;
        if (answered && answered->description == description) answered->is_registered = 0;
        else on_notice(description);
    }
}

static int settle(int r, struct watch *answered)
{
    if (mqs_lost(session)) lose_session();
    else take_earlier(r == 0 ? answered : NULL);
    return r;
}

static int has_session(void)
{
    struct entry e;
    if (session || now_ms() < connect_at) return session != NULL;
    connect_at = now_ms() + (now_ms() < going_on_until ? CONNECT_AGAIN_MS : CONNECT_MS);
    session = dial_another();
    hold(&e);   /* no fork meanwhile */
    if (session && fstat(mqs_fd(session), &session_file) == 0) {
        socket_number = mqs_fd(session);
        socket_file = session_file;
        session_number = ++sessions;
    }
    let_go(&e);
    if (!session) say("poll", "no session of its own; it asks home");
    return session != NULL;
}

/* In a child of fork. The watcher may have been in the middle of a call, so the connection's memory stays. */
void forget_session(void)
{
    if (socket_number >= 0 && is_file(socket_number, &socket_file)) close(socket_number);
    socket_number = -1;
}

/* ---- Looks ---- */

/* Whether the server is away, to which calls go on. */
static void note_absence(struct watch *w, int is_away)
{
    if (!is_away) w->away_until = 0;
    else if (!w->away_until) w->away_until = now_ms() + settings.reconnect / 1000000;
}

static int ask_home(struct watch *w, struct mqs_state *state)
{
    struct entry e;
    enter(&e);
    struct object *o = queues[w->fd];
    if (o) pin(&e, o);
    int r = o && bring(o, HOME) == 0 ? mqs_mq_getattr(sides[HOME].connection, o->at[HOME], state) : -1;
    w->has_name = r == 0 && !o->gone;   /* of a lost one another object may have the name */
    note_absence(w, settings.reconnect && r < 0 && o && !o->lost && loss_at(HOME) != NOT_LOST);
    leave(&e);
    return r;
}

static int ask(struct watch *w, struct mqs_state *state)
{
    return is_open(w) ? settle(mqs_mq_getattr(session, w->description, state), w) : -1;
}

/* A queue that nobody can be asked about is ready for both: the program's next call then shows the error. But as long as calls go on, it isn't
 * ready for what the program waits for. */
static void look(struct watch *w)
{
    struct mqs_state state = { .messages = 2, .messages_now = 1 };
    w->look_at = INT64_MAX;
    if (ask(w, &state) < 0 && ask_home(w, &state) < 0 && now_ms() < w->away_until)
        state = (struct mqs_state){ .messages = 1, .messages_now = wish_of(w, 0).events & POLLIN ? 0 : 1 };
    report(w, state.messages_now, state.messages);
}

/* ---- Registrations ---- */

static void join(struct watch *w)
{
    w->join_at = now_ms() + JOIN_MS;
    w->description = NO_DESCRIPTION;
    if (!has_session()) return;
    w->session = session_number;
    settle(mqs_mq_open(session, w->name, w->access, MQS_NONBLOCK, 0, NULL, &w->description), NULL);
}

static void register_once(struct watch *w)
{
    w->is_registered = 1;
    if (settle(mqs_mq_notify(session, w->description, 1), NULL) == 0) return;
    w->is_registered = 0;
    w->register_at = now_ms() + REGISTER_MS;
}

static void withdraw(struct watch *w)
{
    w->is_registered = 0;
    settle(mqs_mq_notify(session, w->description, 0), NULL);
}

static int can_register(struct watch *w)
{
    struct wish wish = wish_of(w, 0);
    if (w->is_registered || !is_open(w)) return 0;
    return (wish.events & POLLIN) && !wish.yields && now_ms() >= w->register_at;
}

/* ---- Rounds ---- */

static void end_closed(struct watch *w)
{
    while (w) {
        struct watch *next = w->next;
        if (is_open(w)) settle(mqs_mq_close(session, w->description), NULL);
        free(w);
        w = next;
    }
}

/* Does what the program's threads are waiting for. */
static void serve(struct watch *w)
{
    struct wish wish = wish_of(w, 1);
    if (w->is_registered && (wish.yields || !(wish.events & POLLIN))) withdraw(w);
    if (wish.is_due || now_ms() >= w->look_at) look(w);
}

/* Registers if that is wanted. The result is the moment of the next look. */
static int64_t keep(struct watch *w)
{
    if (!is_open(w) && w->has_name && now_ms() >= w->join_at) join(w);
    if (can_register(w)) {
        register_once(w);
        if (w->is_registered && wish_of(w, 0).messages == 0) look(w);
    }
    struct wish wish = wish_of(w, 0);
    int wants_message = (wish.events & POLLIN) && wish.messages == 0 && !w->is_registered;
    int wants_room = (wish.events & POLLOUT) && wish.messages >= wish.room;
    int wants_edge = wish.edges && wish.messages > 0, is_away = now_ms() < w->away_until;
    if (!wants_message && !wants_room && !wants_edge && !is_away) w->look_at = INT64_MAX;
    else if (w->look_at == INT64_MAX) w->look_at = now_ms() + LOOK_MS;
    return can_register(w) ? 0 : w->look_at;
}

/* A notice that was read together with an answer doesn't wake a poll of the socket. */
static void sleep_until(int64_t moment)
{
    uint64_t count;
    int64_t left = moment == INT64_MAX ? -1 : moment - now_ms();
    if (moment != INT64_MAX && left < 0) left = 0;
    if (has_lost || (session && mqsi_look(session) > 0)) left = 0;
    has_lost = 0;
    struct pollfd p[2] = { { wake_number(), POLLIN, 0 }, { session ? mqs_fd(session) : -1, POLLIN, 0 } };
    libc()->poll(p, 2, (int)left);
    if (p[0].revents && is_marked(p[0].fd) && read(p[0].fd, &count, sizeof count) < 0) return;
}

void *watch_queues(void *watcher)
{
    struct watch *w, *closed;
    uint64_t round;
    while (begin_round(watcher, &round, &closed)) {
        int64_t next = INT64_MAX;
        if (session && !is_session_there()) lose_session();
        end_closed(closed);
        take_all();
        for (int fd = 0; (w = next_watch(&fd));) serve(w);
        end_round(round);
        for (int fd = 0; (w = next_watch(&fd));) {
            int64_t at = keep(w);
            if (at < next) next = at;
        }
        sleep_until(next);
    }
    return NULL;
}
