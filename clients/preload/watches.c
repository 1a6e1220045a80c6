/* watches.c: what the program's threads ask of the watcher. A wait names its queues. Each queue gets a watch, and if it seems ready the
 * wait first asks for a look at it, because the program may have taken the message that made it so. */
#include "watch.h"

#include <errno.h>
#include <fcntl.h>
#include <stdatomic.h>
#include <stdlib.h>
#include <string.h>
#include <sys/eventfd.h>
#include <unistd.h>

/* How long a wait waits for a look: somewhat longer than the watcher may take to connect. If the look takes longer, the last one counts. A
 * signal that comes meanwhile is seen within SLICE_MS. */
enum { BOUND_MS = 1500, SLICE_MS = 50, SIGNALS = 64 };

/* A thread that takes this lock and that of entry.c takes that one first. It asks no server while it has this one. */
static pthread_mutex_t lock = PTHREAD_MUTEX_INITIALIZER;
static pthread_cond_t looked;
static int has_looked;                /* it has been initialised in this process */
static struct watch *watches[QUEUES_MAX], *closed_watches;
static int top;                       /* all watches are of numbers below this */
static uint64_t asked, done;          /* rounds of the watcher */
static int wake = -1, is_running;
static uintptr_t watchers;            /* how many there were: the last one counts */

static atomic_char is_number[QUEUES_MAX];
static atomic_int numbers, epoll_queues, has_watches;

/* ---- Which numbers are queues ---- */

int has_queue_numbers(void) { return numbers > 0 && settings.poll != 0; }
int has_epoll_queues(void) { return epoll_queues > 0; }
int is_queue_number(int fd) { return fd >= 0 && fd < QUEUES_MAX && is_number[fd] && is_marked(fd); }

/* ---- The watcher's thread ---- */

/* Keeps signals and cancellation out while the thread has the lock. A process that the system call clone made begins anew before it takes
 * the lock. */
static void shut_out(struct shut *s)
{
    sigset_t all;
    if (owner != getpid()) recover_from_clone();
    sigfillset(&all);
    pthread_setcancelstate(PTHREAD_CANCEL_DISABLE, &s->cancel);
    pthread_sigmask(SIG_SETMASK, &all, &s->mask);
}

static void let_in(const struct shut *s)
{
    int old;
    pthread_sigmask(SIG_SETMASK, &s->mask, NULL);
    pthread_setcancelstate(s->cancel, &old);
}

static void init_looked(void)
{
    pthread_condattr_t by;
    if (has_looked) return;
    has_looked = 1;
    pthread_condattr_init(&by);
    pthread_condattr_setclock(&by, CLOCK_MONOTONIC);
    pthread_cond_init(&looked, &by);
    pthread_condattr_destroy(&by);
}

static void make_idle(struct watch *w)
{
    w->is_idle = 1;
    w->is_due = w->yields = w->is_registered = w->has_name = 0;
    w->waited = 0;
    w->description = NO_DESCRIPTION;
    w->look_at = INT64_MAX;
    w->join_at = w->register_at = 0;
}

static void forget_watcher(void)
{
    is_running = 0;
    watchers++;
    forget_session();
    if (is_marked(wake)) close(wake);
    wake = -1;
    for (int fd = 0; fd < top; fd++)
        if (watches[fd]) make_idle(watches[fd]);
}

/* The thread inherits the mask, in which all signals are blocked. If the program closes the thread's numbers, for example by closefrom, it
 * ends. */
static int start_watcher(void)
{
    pthread_t thread;
    if (is_running && is_marked(wake)) return 0;
    if (is_running) forget_watcher();
    wake = new_eventfd(1);
    if (wake < 0) return -1;
    init_looked();
    int error = pthread_create(&thread, NULL, watch_queues, (void *)++watchers);
    if (error) {
        close(wake);
        return fail(error);
    }
    pthread_detach(thread);
    is_running = 1;
    return 0;
}

static void wake_watcher(void)
{
    uint64_t one = 1;
    if (is_marked(wake) && write(wake, &one, sizeof one) < 0) return;   /* it is awake */
}

int wake_number(void) { return wake; }

static int64_t now_ms(void)
{
    struct timespec t;
    clock_gettime(CLOCK_MONOTONIC, &t);
    return t.tv_sec * INT64_C(1000) + t.tv_nsec / 1000000;
}

/* Whether a signal has come that this mask lets in. */
static int has_signal(const sigset_t *mask)
{
    sigset_t pending;
    if (sigpending(&pending) < 0) return 0;
    for (int signal = 1; signal <= SIGNALS; signal++)
        if (sigismember(&pending, signal) == 1 && sigismember(mask, signal) == 0) return 1;
    return 0;
}

/* Waits for a round that begins from now on. The caller holds the lock, and keeps signals out: one that has come ends the wait. */
static void await_round(const struct shut *s)
{
    int64_t end = now_ms() + BOUND_MS, now;
    uint64_t mine = ++asked;
    if (!is_running) return;
    wake_watcher();
    while (done < mine && (now = now_ms()) < end && !has_signal(&s->mask)) {
        int64_t slice = now + SLICE_MS < end ? now + SLICE_MS : end;
        struct timespec until = { slice / 1000, slice % 1000 * 1000000 };
        pthread_cond_timedwait(&looked, &lock, &until);
    }
}

/* ---- Watches ---- */

static struct watch *new_watch(const struct object *o)
{
    struct watch *w = calloc(1, sizeof *w);
    if (!w) return NULL;
    *w = (struct watch){ .fd = o->fd, .access = o->access, .description = NO_DESCRIPTION, .look_at = INT64_MAX };
    memcpy(w->name, o->name, sizeof w->name);
    w->own = make_pollable(o->fd);
    if (w->own >= 0) return w;
    free(w);
    return NULL;
}

/* Gives the queue a watch, or ends its idleness. The caller has both locks. */
static void arm(const struct object *o)
{
    struct watch *w = watches[o->fd];
    if (start_watcher() < 0 || (!w && !(w = new_watch(o)))) {
        say("poll", strerror(errno));
        return;
    }
    if (settings.poll == 1) w->waited = POLLIN | POLLOUT;
    w->is_idle = 0;
    w->is_due = 1;
    has_watches = 1;
    watches[w->fd] = w;
    if (w->fd >= top) top = w->fd + 1;
    wake_watcher();
}

static void arm_number(int fd)
{
    struct entry e;
    hold(&e);
    pthread_mutex_lock(&lock);
    if (queues[fd]) arm(queues[fd]);
    pthread_mutex_unlock(&lock);
    let_go(&e);
}

/* The queue's number is closed, or is about to be. Epoll sets forget a file with its last number, so the library's goes too. The watcher
 * frees the watch. */
static void end_watch(struct watch *w)
{
    watches[w->fd] = NULL;
    if (is_marked(w->own)) close(w->own);
    if (w->sets > 0) epoll_queues--;
    w->is_closed = 1;
    w->next = closed_watches;
    closed_watches = w;
}

/* The caller of these two has the lock of entry.c. */
int number_closed(int fd)
{
    int error = errno;
    pthread_mutex_lock(&lock);
    int had_watch = watches[fd] != NULL;
    if (had_watch) end_watch(watches[fd]);
    pthread_mutex_unlock(&lock);
    numbers -= is_number[fd];
    is_number[fd] = 0;
    errno = error;
    return had_watch;
}

void number_opened(int fd)
{
    number_closed(fd);
    is_number[fd] = 1;
    numbers++;
    if (settings.poll != 1) return;
    pthread_mutex_lock(&lock);
    arm(queues[fd]);
    pthread_mutex_unlock(&lock);
}

/* Waits for a round of the watcher: queues that were closed before are then closed at the server too. */
void await_watcher(void)
{
    struct shut s;
    int error = errno;
    shut_out(&s);
    pthread_mutex_lock(&lock);
    await_round(&s);
    pthread_mutex_unlock(&lock);
    let_in(&s);
    errno = error;
}

/* ---- Waits ---- */

/* No signal and no cancellation comes between a look and the system's call. end NULL: the wait has none. */
void begin_wait(struct waiting *w, const struct timespec *end)
{
    *w = (struct waiting){ .is_look = end && end->tv_sec == 0 && end->tv_nsec == 0 };
    shut_out(&w->shut);
}

/* A queue that doesn't seem ready needs no look: the watcher hears of messages that others send. But a wait with a timeout of 0 wants to
 * know them now, and what the process itself did is always known. */
static void ask_look(struct waiting *w, struct watch *one, short events, int is_new)
{
    int seems_ready = (events_of(one->messages, one->room) & events) != 0;
    if (is_new || w->is_look || one->is_touched || seems_ready) one->is_due = 1;
    one->is_touched = 0;
    w->has_due |= one->is_due;
}

static struct watch *watch_of(int fd)
{
    pthread_mutex_lock(&lock);
    if (watches[fd] && !watches[fd]->is_idle) return watches[fd];
    pthread_mutex_unlock(&lock);
    arm_number(fd);
    pthread_mutex_lock(&lock);
    return watches[fd];
}

void name_queue(struct waiting *w, int fd, short events)
{
    events &= POLLIN | POLLOUT;
    struct watch *one = watch_of(fd);
    if (one) {
        int is_new = events & ~(one->waited | one->in_sets);
        one->waited |= events;
        ask_look(w, one, events, is_new);
    }
    pthread_mutex_unlock(&lock);
}

/* EPOLLIN and EPOLLOUT have poll's values; the normal bands count as these. */
void name_for_epoll(struct waiting *w, int fd, int set, uint32_t events)
{
    short polled = (short)((events & (EPOLLIN | EPOLLRDNORM) ? POLLIN : 0) | (events & (EPOLLOUT | EPOLLWRNORM) ? POLLOUT : 0));
    struct watch *one = watch_of(fd);
    if (one) {
        one->in_sets |= polled;
        one->edges |= (events & EPOLLET) != 0;
        one->set = set;
        ask_look(w, one, polled, 1);
    }
    pthread_mutex_unlock(&lock);
}

/* A set has the queue, or no longer has it. */
void count_set(int fd, int by)
{
    pthread_mutex_lock(&lock);
    struct watch *one = watches[fd];
    if (one && one->sets + by >= 0) {
        epoll_queues += (one->sets + by > 0) - (one->sets > 0);
        one->sets += by;
        if (one->sets == 0) one->in_sets = 0;
        if (one->sets == 0) one->edges = 0;
        if (is_running) wake_watcher();
    }
    pthread_mutex_unlock(&lock);
}

/* Whether a wait for this set may be one for the queue. The library doesn't know sets in sets, nor numbers from dup, so each wait for a set
 * counts. But a child isn't to watch its parent's queues for a set of its own. */
static int may_have(const struct watch *one, int set) { return one && one->sets > 0 && (!one->is_idle || one->set == set); }

void name_epoll_queues(struct waiting *w, int set)
{
    for (int fd = 0;; fd++) {
        pthread_mutex_lock(&lock);
        while (fd < top && !may_have(watches[fd], set)) fd++;
        int is_over = fd >= top;
        pthread_mutex_unlock(&lock);
        if (is_over) return;
        struct watch *one = watch_of(fd);
        if (one) ask_look(w, one, one->in_sets, 0);
        pthread_mutex_unlock(&lock);
    }
}

void finish_looks(struct waiting *w)
{
    if (!w->has_due) return;
    pthread_mutex_lock(&lock);
    await_round(&w->shut);
    pthread_mutex_unlock(&lock);
}

static void on_cancel(void *waiting) { end_wait(waiting); }

/* The system's call lets signals in, by the mask that the program gave or by the thread's own: a signal that came before ends the call. */
int wait_with(struct waiting *w, int (*call)(void *arg, const sigset_t *mask), void *arg, const sigset_t *mask)
{
    int r, state;
    pthread_cleanup_push(on_cancel, w);
    pthread_setcancelstate(w->shut.cancel, &state);
    r = call(arg, mask ? mask : &w->shut.mask);
    pthread_cleanup_pop(0);
    end_wait(w);
    return r;
}

void end_wait(struct waiting *w)
{
    int error = errno;
    let_in(&w->shut);
    errno = error;
}

/* The process has sent or received: the next wait asks for a look. */
void touch(const char *name)
{
    if (!has_watches) return;
    pthread_mutex_lock(&lock);
    for (int fd = 0; fd < top; fd++)
        if (watches[fd] && !strcmp(watches[fd]->name, name)) watches[fd]->is_touched = 1;
    pthread_mutex_unlock(&lock);
}

/* With MQSERVE_POLL=1, after the program has sent or received: the library may not see its next wait. */
void look_after(int fd)
{
    if (!is_queue_number(fd)) return;
    int error = errno;
    struct waiting w;
    begin_wait(&w, NULL);
    w.is_look = 1;
    name_queue(&w, fd, 0);
    finish_looks(&w);
    end_wait(&w);
    errno = error;
}

/* ---- The program's own mq_notify ---- */

static void yield_by(int fd, int by)
{
    struct entry e;
    hold(&e);
    const struct object *o = fd >= 0 && fd < QUEUES_MAX ? queues[fd] : NULL;
    pthread_mutex_lock(&lock);
    for (int i = 0; o && i < top; i++)
        if (watches[i] && !strcmp(watches[i]->name, o->name)) watches[i]->yields += by;
    pthread_mutex_unlock(&lock);
    let_go(&e);
}

/* The watcher gives its registration up for the program's own, and takes none until end_giving_way. */
void give_way(int fd)
{
    if (!has_watches) return;
    yield_by(fd, 1);
    await_watcher();
}

void end_giving_way(int fd)
{
    if (has_watches) yield_by(fd, -1);
}

/* ---- For the watcher ---- */

/* 0: another watcher has begun, or this one has lost its numbers. */
int begin_round(void *watcher, uint64_t *round, struct watch **closed)
{
    pthread_mutex_lock(&lock);
    int goes_on = (uintptr_t)watcher == watchers && is_marked(wake);
    if (goes_on) {
        *round = asked;
        *closed = closed_watches;
        closed_watches = NULL;
    }
    pthread_mutex_unlock(&lock);
    return goes_on;
}

void end_round(uint64_t round)
{
    pthread_mutex_lock(&lock);
    done = round;
    pthread_cond_broadcast(&looked);
    pthread_mutex_unlock(&lock);
}

/* The first watch of a number from *fd on, which isn't freed before the round has ended; *fd is then the number after it. */
struct watch *next_watch(int *fd)
{
    pthread_mutex_lock(&lock);
    while (*fd < top && (!watches[*fd] || watches[*fd]->is_idle)) ++*fd;
    struct watch *w = *fd < top ? watches[(*fd)++] : NULL;
    pthread_mutex_unlock(&lock);
    return w;
}

/* What the program wants of a watch. takes: the watcher makes the look now. */
struct wish wish_of(struct watch *w, int takes)
{
    pthread_mutex_lock(&lock);
    struct wish wish = { w->waited | w->in_sets, w->edges, w->is_due, w->yields, w->messages, w->room };
    if (takes) w->is_due = 0;
    pthread_mutex_unlock(&lock);
    return wish;
}

/* Keeps the outcome of a look or of a notice. */
void report(struct watch *w, uint32_t messages, uint32_t room)
{
    pthread_mutex_lock(&lock);
    int has_numbers = is_marked(w->fd) && is_marked(w->own);   /* else the program has closed one */
    if (!w->is_closed && !has_numbers) end_watch(w);
    if (!w->is_closed) {
        show_state(w->own, messages, room, messages != w->messages);
        w->messages = messages;
        w->room = room;
    }
    pthread_mutex_unlock(&lock);
}

/* ---- fork ---- */

void hold_watches(void) { pthread_mutex_lock(&lock); }
void release_watches(void) { pthread_mutex_unlock(&lock); }
void renew_watches(void) { pthread_mutex_init(&lock, NULL); }   /* as renew_lock */

/* In a child, which has no watcher. It has the files of its parent's watches, and begins anew when it waits for them. */
void forget_watches(void)
{
    forget_watcher();
    has_looked = 0;
}
