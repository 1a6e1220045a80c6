/* cancelled.c [taken]: a thread is cancelled while its mq_receive blocks, and the message must not be lost.
 * - A message comes before the server knows: tests/relay.py has the send overtake the Interrupt. The queue is open for receives alone.
 * - taken: the cancellation comes as a recv has taken the answer's bytes. Some C libraries act on it there, as this recv does. */
#include "cases/case.h"

#include <dlfcn.h>
#include <poll.h>
#include <sys/socket.h>

static mqd_t q;
static char data[16];
static long size = -2;
static int cancels;
static _Thread_local int has_blocked;

/* Without an end it is the wait of a call that blocks; an answer is there then. */
int ppoll(struct pollfd *files, nfds_t count, const struct timespec *left, const sigset_t *mask)
{
    int (*next)(struct pollfd *, nfds_t, const struct timespec *, const sigset_t *);
    *(void **)&next = dlsym(RTLD_NEXT, "ppoll");
    int n = next(files, count, left, mask);
    has_blocked = n > 0 && !left;
    return n;
}

int __ppoll_chk(struct pollfd *files, nfds_t count, const struct timespec *left, const sigset_t *mask, size_t files_size);
int __ppoll_chk(struct pollfd *files, nfds_t count, const struct timespec *left, const sigset_t *mask, size_t files_size)
{
    (void)files_size;
    return ppoll(files, count, left, mask);
}

ssize_t recv(int fd, void *to, size_t room, int flags)
{
    ssize_t n = recvfrom(fd, to, room, flags, NULL, NULL);
    if (n > 0 && cancels && has_blocked) {
        cancels = 0;
        pthread_cancel(pthread_self());
        pthread_testcancel();
    }
    return n;
}

static void *receive(void *arg)
{
    size = mq_receive(q, data, sizeof data, NULL);
    pthread_testcancel();
    return arg;
}

static void show_messages(void)
{
    struct mq_attr a = { 0 };
    mq_getattr(q, &a);
    say("messages", a.mq_curmsgs);
}

static void put_back(void)
{
    pthread_t thread;
    void *r;
    q = mq_open("/cancelled", O_RDONLY);
    if (fork() == 0) _exit(mq_send(mq_open("/cancelled", O_WRONLY), "child", 5, 7) != 0);
    pthread_create(&thread, NULL, receive, NULL);
    pause_ms(300);
    pthread_cancel(thread);
    pthread_join(thread, &r);
    say("cancelled", r == PTHREAD_CANCELED);
    say("child", end_of_child());
    show_messages();
    unsigned priority = 0;
    struct timespec until = in_ms(300);
    SHOW(mq_timedreceive(q, data, sizeof data, &priority, &until));
    say("priority", priority);
}

static void taken(void)
{
    pthread_t thread;
    void *r;
    q = mq_open("/cancelled", O_RDWR);
    cancels = 1;
    pthread_create(&thread, NULL, receive, NULL);
    pause_ms(300);
    SHOW(mq_send(q, "own", 3, 7));
    pthread_join(thread, &r);
    say("cancelled", r == PTHREAD_CANCELED);
    say("received", size);
    show_messages();
}

int main(int argc, char **argv)
{
    mq_close(new_queue("/cancelled", 2, 16));
    if (argc > 1 && !strcmp(argv[1], "taken")) taken();
    else put_back();
    SHOW(mq_close(q) | mq_unlink("/cancelled"));
    return 0;
}
