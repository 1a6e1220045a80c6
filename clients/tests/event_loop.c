/* event_loop.c: queues in libevent's loop, by each way in which it waits. The program looks for the library as it runs, so building it
 * needs none. If none is installed it says so. */
#include "cases/case.h"

#include <dlfcn.h>

enum { QUEUES = 3, MESSAGES = 200, READS = 2, PERSISTS = 16 };   /* EV_READ, EV_PERSIST */

typedef void callback(int fd, short what, void *arg);

static struct {
    void *(*event_config_new)(void);
    int (*event_config_avoid_method)(void *, const char *);
    void *(*event_base_new_with_config)(void *);
    const char *(*event_base_get_method)(void *);
    void *(*event_new)(void *, int, short, callback *, void *);
    int (*event_add)(void *, const struct timeval *);
    void (*event_free)(void *);
    int (*event_base_dispatch)(void *);
    int (*event_base_loopbreak)(void *);
    void (*event_base_free)(void *);
    void (*event_config_free)(void *);
} libevent;

static int received, in_vain;
static void *base;

#define FIND(name) if (!(*(void **)&libevent.name = dlsym(library, #name))) return 0

static int find(void)
{
    void *library = dlopen("libevent_core-2.1.so.7", RTLD_NOW);
    if (!library) library = dlopen("libevent-2.1.so.7", RTLD_NOW);
    if (!library) return 0;
    FIND(event_config_new);
    FIND(event_config_avoid_method);
    FIND(event_base_new_with_config);
    FIND(event_base_get_method);
    FIND(event_new);
    FIND(event_add);
    FIND(event_free);
    FIND(event_base_dispatch);
    FIND(event_base_loopbreak);
    FIND(event_base_free);
    FIND(event_config_free);
    return 1;
}

/* One receive by a descriptor that blocks: a loop that is the only reader never waits in it. */
static void on_message(int fd, short what, void *arg)
{
    char data[16];
    (void)arg;
    if (what == READS && mq_receive(fd, data, sizeof data, NULL) == 1) received++;
    else in_vain++;
    if (received == MESSAGES) libevent.event_base_loopbreak(base);
}

static void on_timeout(int fd, short what, void *arg)
{
    (void)fd;
    (void)what;
    (void)arg;
    libevent.event_base_loopbreak(base);
}

static void send_all(const mqd_t *q)
{
    for (int i = 0; i < MESSAGES; i++) {
        if (mq_send(q[i % QUEUES], "x", 1, 0) < 0) _exit(1);
        if (i % 10 == 0) pause_ms(1);
    }
    _exit(0);
}

static void loop(const mqd_t *q, const char *avoided, const char *avoided_too)
{
    void *config = libevent.event_config_new(), *events[QUEUES + 1];
    struct timeval end = { 20, 0 };
    libevent.event_config_avoid_method(config, avoided);
    libevent.event_config_avoid_method(config, avoided_too);
    base = libevent.event_base_new_with_config(config);
    received = in_vain = 0;
    for (int i = 0; i < QUEUES; i++) {
        events[i] = libevent.event_new(base, q[i], READS | PERSISTS, on_message, NULL);
        libevent.event_add(events[i], NULL);
    }
    events[QUEUES] = libevent.event_new(base, -1, 0, on_timeout, NULL);
    libevent.event_add(events[QUEUES], &end);
    fflush(stdout);
    if (fork() == 0) send_all(q);
    libevent.event_base_dispatch(base);
    printf("%s: %d of %d messages, %d in vain\n", libevent.event_base_get_method(base), received, MESSAGES, in_vain);
    say("child", end_of_child());
    for (int i = 0; i <= QUEUES; i++) libevent.event_free(events[i]);
    libevent.event_base_free(base);
    libevent.event_config_free(config);
}

int main(void)
{
    mqd_t q[QUEUES];
    char name[16];
    if (!find()) {
        puts("no libevent here; passed over");
        return 0;
    }
    for (int i = 0; i < QUEUES; i++) {
        snprintf(name, sizeof name, "/event_loop%d", i);
        q[i] = new_queue(name, 4, 16);
    }
    loop(q, "poll", "select");
    loop(q, "epoll", "select");
    loop(q, "epoll", "poll");
    for (int i = 0; i < QUEUES; i++) {
        snprintf(name, sizeof name, "/event_loop%d", i);
        mq_close(q[i]);
        mq_unlink(name);
    }
    return 0;
}
