/* rates.c WAY JOB SECONDS: how often a job is done in a second, by one way of making its calls. tests/rates compares them.
 *
 * calls: <mqueue.h> and <semaphore.h>, of the kernel or of a preload library. library: mqserve.h. bare: frames over a socket, built once,
 * and answers of which only the length is looked at: the least that a client of this protocol can do. The server is MQSERVE's.
 * message: a send and a receive of 64 bytes. semaphore: a post and a wait. open: an open and a close of a queue that is there.
 * there-and-back: a message to another process and its answer, each by a queue whose reader blocks. */
#include "cases/case.h"
#include "../c/mqserve.h"

#include <netinet/in.h>
#include <netinet/tcp.h>
#include <sys/socket.h>
#include <sys/un.h>

enum { SIZE = 64, BOUND_MS = 30000 };
static const char *const names[2] = { "/rates-there", "/rates-back" };
static char data[SIZE];

static void need(int holds, const char *what)
{
    if (holds) return;
    perror(what);
    _exit(1);
}

/* A way's queues are 0 and 1. begin opens all, in each process. */
struct way {
    void (*begin)(void);
    void (*send)(int queue);
    void (*receive)(int queue);
    void (*post)(void);
    void (*wait)(void);
    void (*open_and_close)(void);
};

/* ---- By the calls of libc ---- */

static mqd_t queue[2];
static sem_t *semaphore;

static void calls_begin(void)
{
    struct mq_attr attributes = { .mq_maxmsg = 10, .mq_msgsize = SIZE };
    for (int i = 0; i < 2; i++) need((queue[i] = mq_open(names[i], O_RDWR | O_CREAT, 0600, &attributes)) != (mqd_t)-1, names[i]);
    need((semaphore = sem_open("/rates", O_CREAT, 0600, 0)) != SEM_FAILED, "/rates");
}
static void calls_send(int i) { need(mq_send(queue[i], data, SIZE, 0) == 0, "mq_send"); }
static void calls_receive(int i) { need(mq_receive(queue[i], data, SIZE, NULL) == SIZE, "mq_receive"); }
static void calls_post(void) { need(sem_post(semaphore) == 0, "sem_post"); }
static void calls_wait(void) { need(sem_wait(semaphore) == 0, "sem_wait"); }
static void calls_open_and_close(void)
{
    mqd_t one = mq_open(names[0], O_RDWR);
    need(one != (mqd_t)-1 && mq_close(one) == 0, "open and close");
}

/* ---- By the library ---- */

static struct mqs *c;
static uint64_t described[2], counted;

static void library_begin(void)
{
    struct mqs_attributes attributes = { 10, SIZE };
    need((c = mqs_connect(getenv("MQSERVE"), getenv("MQSERVE_KEY"), BOUND_MS)) != NULL, "connect");
    for (int i = 0; i < 2; i++) need(mqs_mq_open(c, names[i], MQS_BOTH, MQS_CREATE, 0600, &attributes, &described[i]) == 0, names[i]);
    need(mqs_sem_open(c, "/rates", MQS_CREATE, 0600, 0, &counted) == 0, "/rates");
}
static void library_send(int i) { need(mqs_mq_send(c, described[i], data, SIZE, 0, NULL) == 0, "send"); }
static void library_receive(int i) { need(mqs_mq_receive(c, described[i], data, SIZE, NULL, NULL) == SIZE, "receive"); }
static void library_post(void) { need(mqs_sem_post(c, counted) == 0, "post"); }
static void library_wait(void) { need(mqs_sem_wait(c, counted, NULL) == 0, "wait"); }
static void library_open_and_close(void)
{
    uint64_t one;
    need(mqs_mq_open(c, names[0], MQS_BOTH, 0, 0, NULL, &one) == 0 && mqs_mq_close(c, one) == 0, "open and close");
}

/* ---- By bare frames ---- */

static int fd;
static unsigned char sends[2][17 + SIZE], receives[2][17], post[13], wait_frame[13], open_frame[32], close_frame[13];
static size_t open_size;

static void put(unsigned char *at, uint64_t value, int bytes)
{
    while (bytes-- > 0) *at++ = (unsigned char)(value >> (8 * bytes));
}

static void head(unsigned char *frame, size_t size, int op, uint64_t description)
{
    put(frame, size - 4, 4);
    frame[4] = (unsigned char)op;
    put(frame + 5, description, 8);
}

/* Sends a frame, and reads an answer of so many bytes. */
static void ask(const unsigned char *frame, size_t size, size_t answer, unsigned char *room)
{
    need(send(fd, frame, size, 0) == (ssize_t)size, "send");
    need(recv(fd, room, answer, MSG_WAITALL) == (ssize_t)answer, "recv");
}

/* The frames use what the library has opened, over its own socket. */
static void bare_begin(void)
{
    library_begin();
    fd = mqs_fd(c);
    for (int i = 0; i < 2; i++) {
        head(sends[i], sizeof sends[i], 6, described[i]);
        head(receives[i], sizeof receives[i], 7, described[i]);
        put(receives[i] + 13, SIZE, 4);
    }
    head(post, sizeof post, 14, counted);
    head(wait_frame, sizeof wait_frame, 15, counted);
    open_size = 5 + 2 + strlen(names[0]) + 5;
    put(open_frame, open_size - 4, 4);
    open_frame[4] = 3;
    put(open_frame + 5, strlen(names[0]), 2);
    memcpy(open_frame + 7, names[0], strlen(names[0]));
    open_frame[open_size - 5] = MQS_BOTH;
}
static void bare_send(int i) { ask(sends[i], sizeof sends[i], 5, (unsigned char[5]){ 0 }); }
static void bare_receive(int i) { ask(receives[i], sizeof receives[i], 9 + SIZE, (unsigned char[9 + SIZE]){ 0 }); }
static void bare_post(void) { ask(post, sizeof post, 5, (unsigned char[5]){ 0 }); }
static void bare_wait(void) { ask(wait_frame, sizeof wait_frame, 5, (unsigned char[5]){ 0 }); }
static void bare_open_and_close(void)
{
    unsigned char opened[13];
    ask(open_frame, open_size, sizeof opened, opened);
    head(close_frame, sizeof close_frame, 4, 0);
    memcpy(close_frame + 5, opened + 5, 8);
    ask(close_frame, sizeof close_frame, 5, opened);
}

/* ---- Jobs ---- */

static const struct way ways[] = {
    { calls_begin, calls_send, calls_receive, calls_post, calls_wait, calls_open_and_close },
    { library_begin, library_send, library_receive, library_post, library_wait, library_open_and_close },
    { bare_begin, bare_send, bare_receive, bare_post, bare_wait, bare_open_and_close },
};
static const char *const way_names[] = { "calls", "library", "bare" }, *const job_names[] = { "message", "semaphore", "open", "there-and-back" };

static int find(const char *word, const char *const *all, int count)
{
    for (int i = 0; i < count; i++)
        if (!strcmp(word, all[i])) return i;
    fprintf(stderr, "rates: %s\n", word);
    exit(2);
}

static void once(const struct way *w, int job)
{
    if (job == 1) {
        w->post();
        w->wait();
    } else if (job == 2) {
        w->open_and_close();
    } else {
        w->send(0);
        w->receive(job == 3);
    }
}

/* The other process of there-and-back, which the first one ends. */
static pid_t start_other(const struct way *w)
{
    pid_t other = fork();
    if (other) return other;
    w->begin();
    for (;;) {
        w->receive(0);
        w->send(1);
    }
}

static double rate(const struct way *w, int job, double length)
{
    long count = 0;
    for (double end = seconds() + length / 10; seconds() < end;) once(w, job);   /* warms up */
    double start = seconds(), now = start;
    for (; now - start < length; now = seconds(), count += 16)
        for (int i = 0; i < 16; i++) once(w, job);
    return (double)count / (now - start);
}

int main(int argc, char **argv)
{
    if (argc != 4) return 2;
    const struct way *w = &ways[find(argv[1], way_names, 3)];
    int job = find(argv[2], job_names, 4);
    pid_t other = job == 3 ? start_other(w) : 0;
    w->begin();
    printf("%.1f\n", rate(w, job, atof(argv[3])));
    if (other) kill(other, SIGKILL);
    return w == ways ? mq_unlink(names[0]) | mq_unlink(names[1]) | sem_unlink("/rates") : 0;
}
