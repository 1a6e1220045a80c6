/* watch.h: what poll, select and epoll on an mqd_t share. A queue that a program waits for has a watch: an eventfd in place of its number's
 * file, which a thread of the library's own, the watcher, keeps in the queue's state. The program's threads ask for looks (watches.c). The
 * watcher alone makes them, in a session of its own (watcher.c). */
#ifndef WATCH_H
#define WATCH_H

#include "preload.h"

#include <poll.h>

struct watch {
    struct watch *next;         /* of those that were closed */
    int fd, own;                /* the mqd_t, and the library's own number for its file */
    int access;
    char name[NAME_ROOM];

    /* Under the lock of watches.c. Events are POLLIN and POLLOUT. */
    short waited, in_sets;      /* the events that were waited for by poll and select; that are waited for by epoll sets */
    int edges;                  /* one of the sets is edge-triggered */
    int sets, set;              /* how many sets it is in, and the last one's number */
    int is_idle;                /* in a child of fork, until it waits for the queue itself */
    int is_due, is_touched;     /* a look is asked for; is to be asked for by the next wait */
    int yields;                 /* how many calls of mq_notify want the registration */
    int is_closed;
    uint32_t messages, room;    /* at the last look */

    /* The watcher's alone. */
    uint64_t description, session;   /* and of which of its sessions it is */
    int is_registered, has_name;     /* has_name: it can be opened by it */
    int64_t look_at, join_at, register_at;   /* in milliseconds of CLOCK_MONOTONIC */
    int64_t away_until;                      /* the server is away, to which calls go on until then; 0: it isn't */
};

/* ---- readiness.c ---- */

int mark_number(int fd);
int is_marked(int fd);
int new_eventfd(int is_nonblock);
int make_pollable(int fd);
short events_of(uint32_t messages, uint32_t room);
void show_state(int own, uint32_t messages, uint32_t room, int is_news);

/* ---- watches.c: for the program's threads ---- */

struct shut { sigset_t mask; int cancel; };                     /* the thread's own */
struct waiting { struct shut shut; int is_look, has_due; };     /* is_look: its timeout is 0 */

int is_queue_number(int fd);
int has_queue_numbers(void);
int has_epoll_queues(void);
void number_opened(int fd);
int number_closed(int fd);

void begin_wait(struct waiting *w, const struct timespec *end);
void name_queue(struct waiting *w, int fd, short events);
void name_for_epoll(struct waiting *w, int fd, int set, uint32_t events);
void name_epoll_queues(struct waiting *w, int set);
void count_set(int fd, int by);
void finish_looks(struct waiting *w);
int wait_with(struct waiting *w, int (*call)(void *arg, const sigset_t *mask), void *arg, const sigset_t *mask);
void end_wait(struct waiting *w);

void touch(const char *name);
void look_after(int fd);
void await_watcher(void);
void give_way(int fd);
void end_giving_way(int fd);

/* ---- watches.c: for the watcher ---- */

struct wish { short events; int edges, is_due, yields; uint32_t messages, room; };

int begin_round(void *watcher, uint64_t *round, struct watch **closed);
void end_round(uint64_t round);
struct watch *next_watch(int *fd);
struct wish wish_of(struct watch *w, int takes);
void report(struct watch *w, uint32_t messages, uint32_t room);
int wake_number(void);

/* ---- sessions.c ---- */

struct mqs *dial_another(void);

/* ---- watcher.c ---- */

void *watch_queues(void *watcher);
void forget_session(void);

/* ---- fork.c calls these ---- */

void hold_watches(void);
void release_watches(void);
void renew_watches(void);
void forget_watches(void);

#endif
