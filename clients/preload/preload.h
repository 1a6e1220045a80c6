/* preload.h: what the parts of libmqserve-preload share.
 *
 * The server gives a session one call at a time, and a description belongs to one session; a program has one mqd_t for all its
 * threads. So session 0, `home`, is for all threads, one call after another, and nothing on it blocks: its queue descriptions have
 * NONBLOCK, and a semaphore's wait is first a trywait. A call that must block goes to a session of its own, a `side`, for as
 * long as it blocks; one with a moment goes there at once if it can. A side opens the object by its name. Where no side can be had the
 * call asks home again and again. */
#ifndef PRELOAD_H
#define PRELOAD_H

#include "../c/again.h"
#include "../c/away.h"

#include <mqueue.h>
#include <poll.h>
#include <pthread.h>
#include <semaphore.h>
#include <signal.h>
#include <stddef.h>
#include <stdint.h>
#include <sys/epoll.h>
#include <sys/select.h>
#include <sys/types.h>
#include <time.h>

enum {
    HOME = 0,
    SIDES_MAX = 257,            /* home, and calls that block at once; further ones ask home again and again */
    QUEUES_MAX = 65536,         /* an mqd_t is below this */
    SEMAPHORES_MAX = 1024,
    NAME_LONGEST = 65535,       /* of a request */
    NAME_ROOM = 264,            /* a name that a server accepts has at most 256 bytes */
    FIRST_FD = 256,             /* sockets are moved to here and above, out of the way of numbers that programs expect */
};

#define NO_DESCRIPTION UINT64_MAX
#define PUBLIC __attribute__((visibility("default")))

/* ---- settings.c: the environment ---- */

struct settings {
    const char *address, *key;  /* without an address nothing changes for the program */
    int sides, spares, keep_names, hello_ms, answer_ms, debug;
    int64_t reconnect;          /* for so many nanoseconds calls go on after a loss; 0: they don't */
    int shared_clock;           /* whether the server's clock is this machine's; -1: as its address says */
    int poll;                   /* whether poll, select and epoll see queues: 0, never; 1, from their opens on; -1, once they name one */
};
extern struct settings settings;

int is_served(void);            /* whether the program's calls go to a server; reads the environment the first time */
void say(const char *what, const char *why);

/* ---- libc.c: the C library's own calls ---- */

struct libc {
    mqd_t (*mq_open)(const char *, int, ...);
    int (*mq_close)(mqd_t);
    int (*mq_unlink)(const char *);
    int (*mq_getattr)(mqd_t, struct mq_attr *);
    int (*mq_setattr)(mqd_t, const struct mq_attr *, struct mq_attr *);
    int (*mq_notify)(mqd_t, const struct sigevent *);
    int (*mq_send)(mqd_t, const char *, size_t, unsigned);
    int (*mq_timedsend)(mqd_t, const char *, size_t, unsigned, const struct timespec *);
    ssize_t (*mq_receive)(mqd_t, char *, size_t, unsigned *);
    ssize_t (*mq_timedreceive)(mqd_t, char *, size_t, unsigned *, const struct timespec *);
    sem_t *(*sem_open)(const char *, int, ...);
    int (*sem_close)(sem_t *);
    int (*sem_unlink)(const char *);
    int (*sem_post)(sem_t *);
    int (*sem_wait)(sem_t *);
    int (*sem_trywait)(sem_t *);
    int (*sem_timedwait)(sem_t *, const struct timespec *);
    int (*sem_clockwait)(sem_t *, clockid_t, const struct timespec *);
    int (*sem_getvalue)(sem_t *, int *);
    int (*poll)(struct pollfd *, nfds_t, int);
    int (*ppoll)(struct pollfd *, nfds_t, const struct timespec *, const sigset_t *);
    int (*__poll_chk)(struct pollfd *, nfds_t, int, size_t);
    int (*__ppoll_chk)(struct pollfd *, nfds_t, const struct timespec *, const sigset_t *, size_t);
    int (*select)(int, fd_set *, fd_set *, fd_set *, struct timeval *);
    int (*pselect)(int, fd_set *, fd_set *, fd_set *, const struct timespec *, const sigset_t *);
    int (*epoll_ctl)(int, int, int, struct epoll_event *);
    int (*epoll_wait)(int, struct epoll_event *, int, int);
    int (*epoll_pwait)(int, struct epoll_event *, int, int, const sigset_t *);
    int (*epoll_pwait2)(int, struct epoll_event *, int, const struct timespec *, const sigset_t *);   /* NULL in older ones */
};
const struct libc *libc(void);

/* ---- entry.c: calls, the lock and home ---- */

/* What a try left behind that lost its connection: a request that never left, or one that may have been done. */
enum loss { NOT_LOST, UNSENT, UNKNOWN };

/* A call that goes on after a loss: again.c. */
struct tries {
    deadline end;               /* 0: it doesn't */
    long pause_ns;
    enum loss loss;             /* of the last try */
    int is_open, ends_by_handlers;
    int is_over;                /* a signal ends the call */
    int is_unknown;             /* an earlier try may have been done */
};

/* A call that a thread makes. */
struct entry {
    struct entry *outer;        /* the call in whose wait the handler of a signal makes this one, or NULL */
    sigset_t mask;              /* the thread's own */
    int cancel;
    int may_end;                /* a signal or its end may end it */
    deadline end;               /* when this side ends it at the latest */
    int has_lock, has_home;
    int is_left;                /* the thread jumped out of it */
    unsigned forks;             /* as `forks` was when it began */
    struct tries tries;
    struct object *object;      /* the object stays while the call goes on, or NULL */
    int is_away;                /* its thread runs handlers while home's answer is to come */
    struct away *away;          /* that answer, if it is one to this call */
    struct blocked *blocked;    /* it blocks on a side */
    int has_left_side;          /* it blocked on a side whose answer is to come */
};

int fail(int error);
void enter(struct entry *e);
int enter_until(struct entry *e, const struct timespec *until);   /* a call that may end: a send, a receive or a wait */
int enter_within(struct entry *e, deadline end);
void enter_apart(struct entry *e, deadline end);
void leave(struct entry *e);
void pin(struct entry *e, struct object *o);
struct entry *innermost(void);  /* the call that this thread makes, or NULL */
void set_innermost(struct entry *e);

void hold(struct entry *e);     /* the lock alone, to ask nothing of the server */
void let_go(struct entry *e);
void lock_state(struct entry *e);
void unlock_state(struct entry *e);
void renew_lock(void);

int take_home(struct entry *e); /* -1: a signal or its end ended the call */
int await_home(struct entry *e);
void release_home(struct entry *e);
void step_out(struct entry *e);
void step_in(struct entry *e);

/* ---- signals.c ---- */

enum heard { DEFAULTS = 1, HANDLERS = 2, ENDING = 4 };   /* ENDING: a handler that restarts no call */

void keep_signals_out(sigset_t *before);
int look_at_signals(const struct entry *e);
int hear(struct entry *e);
int signals_of(int side, const struct entry *e);

/* ---- waits.c ---- */

int wait_for_answer(struct mqs *c, short events, deadline end);
int wait_on_side(int side, clockid_t clock, const struct timespec *until, struct entry *e, int restarts);
int pause_open(const struct timespec *pause, struct entry *e);

/* ---- again.c: going on after a restart ---- */

enum loss loss_at(int side);
void begin_tries(struct entry *e, int64_t patience);
int goes_on(struct entry *e, enum repeat repeat);
int at_home(struct entry *e, enum repeat repeat, int (*once)(void *arg), void *arg);
int open_at_home(struct entry *e, int oflag, int (*once)(void *arg), void *arg);
int outlives(struct entry *e);
void count_receive(const struct object *o);
void forget_receives(void);

/* ---- left.c: calls that their threads have left ---- */

enum operation { SENDS, RECEIVES, WAITS };

extern int left_count;          /* sides whose calls are left */

void leave_side(int side, struct object *o, enum operation operation);
void make_good(struct mqs *c, struct away *a);
void reap(const struct entry *e);
void forget_left(void);
void abandon(struct entry *e);
void unpin(struct entry *e);
void on_unwind(void *entry);

/* ---- objects.c: what an mqd_t or a sem_t stands for in this process ---- */

struct object {
    char name[NAME_ROOM];
    int family, access;
    int unlinked;               /* by this process: an open of the name gives another object */
    int gone;                   /* the name can't be used to open this object again */
    int lost;                   /* with a home that was lost, for good: the error of further calls, or 0 */
    int comes_back;             /* it was open on a home that was lost, and is opened by its name */
    unsigned references, calls; /* opens, and calls that block; how many of these are calls */
    uint64_t at[SIDES_MAX];     /* its description in each session */
    int fd;                     /* a queue's number, and the file that has it */
    dev_t device;
    ino_t inode;
    int registered;
    struct sigevent event;
    pthread_attr_t attributes;  /* of the thread that SIGEV_THREAD starts */
};

extern struct object *queues[QUEUES_MAX];
extern struct object semaphores[SEMAPHORES_MAX];
extern int queues_top, semaphores_top;   /* all that are in use are below these */

void set_up(struct object *o, int family, const char *name, int access, uint64_t description);
void for_each_object(void (*f)(struct object *o, int side), int side);
void for_each_named(int family, const char *name, void (*f)(struct object *o, void *arg), void *arg);
void lose(struct object *o);
int bring(struct object *o, int side);
void drop(struct object *o);

/* ---- sessions.c: home and sides ---- */

struct late { struct late *next; int family; uint64_t description; };

struct side {
    struct mqs *connection;
    dev_t device;               /* its socket */
    ino_t inode;
    int busy;                   /* a call uses it. Home's: one that asks home */
    struct late *late;          /* descriptions to close when it is free again */
    struct object *left;        /* the object of a call that its thread has left; the answer is to come */
    enum operation operation;
    deadline left_until;
    int signals;                /* a signalfd above 0, and the mask for which it was made */
    sigset_t mask;
};
extern struct side sides[SIDES_MAX];
extern int away_from_home;      /* calls that go on with home's connection once their threads have run handlers */

struct mqs *home(void);
struct mqs *home_for_open(void);
deadline home_lost_at(void);
void look_at_home(void);
int has_socket(int side);
void end_side(int side);
void forget_side(int side, int in_child);
int widen(void);
int open_side(struct object *o);
int side_for(struct object *o);
void spread(struct object *o);
void free_side(int side);
int close_at(int side, int family, uint64_t description);
void close_later(int side, int family, uint64_t description);
void close_late(void);

/* ---- names.c: unlinks, and names that are kept until the end ---- */

int unlink_name(int family, const char *name);
int is_kept(int family, const char *name);
int end_kept(int family, const char *name);
void end_all_kept(void);
int keeps_names(void);
unsigned mode_under_umask(unsigned mode);
int open_flags(int oflag);

/* ---- queues.c ---- */

int is_nonblock(const struct object *o);

/* ---- blocking.c: sends, receives and waits ---- */

struct job { struct object *object; enum operation operation; void *data; size_t size; uint32_t priority; };
struct blocked { struct job *job; int side; };

ssize_t perform(struct job *job, const struct timespec *until, struct entry *e);
int pause_apart(long pause_ns, struct entry *e, int restarts);

/* ---- notices.c ---- */

extern int registrations;

void take_notices(void);
void take_earlier_notices(void);
void pass_on_notices(void);
int start_listening(void);
void forget_listener(void);
void end_registration(struct object *o);
void give_last_notice(struct object *o);
int keep_event(struct object *o, const struct sigevent *event);

/* ---- fork.c ---- */

extern _Atomic pid_t owner;     /* the process whose sessions these are */
extern unsigned forks;          /* how many forks lie between the program's start and this process */

int watch_forks(void);
void recover_from_clone(void);

#endif
