/* storm.c SECONDS: threads that send and receive, post and wait, while signals come, and handlers fork and jump. The server may be stopped
 * meanwhile. Each message has a number. Those that were sent are received once, and those of sends
 * that a signal ended at most once; so it is with posts. */
#include "cases/case.h"

#include <setjmp.h>
#include <stdatomic.h>
#include <stdint.h>

enum { PAIRS = 3, MESSAGES_MAX = 200000, DRAIN_MS = 3000 };

enum state { UNUSED, SENT, UNKNOWN };

static mqd_t q, empty;
static sem_t *s;
static atomic_int next_number, received[MESSAGES_MAX], posts, waits, faults, forks, is_over;
static enum state states[MESSAGES_MAX];
static pthread_t threads[4 * PAIRS];
static _Thread_local sigjmp_buf back;
static _Thread_local volatile sig_atomic_t may_jump;

static void nothing(int signal) { (void)signal; }

static void jump_or_fork(int signal)
{
    (void)signal;
    if (may_jump) {
        may_jump = 0;
        siglongjmp(back, 1);
    }
    if (forks++ % 8 == 0) {
        if (fork() == 0) _exit(0);
    }
}

static void fault(const char *what)
{
    if (faults++ < 5) printf("%s: %s\n", what, strerrorname_np(errno));
}

static int is_interruption(void) { return errno == EINTR || errno == ETIMEDOUT; }

static void *send_all(void *arg)
{
    while (!is_over) {
        int number = next_number++;
        if (number >= MESSAGES_MAX) break;
        struct timespec until = in_ms(50);
        int r = number % 3 ? mq_send(q, (char *)&number, sizeof number, 0) : mq_timedsend(q, (char *)&number, sizeof number, 0, &until);
        states[number] = r == 0 ? SENT : UNKNOWN;
        if (r < 0 && !is_interruption()) fault("send");
    }
    return arg;
}

static void take(const char *message, ssize_t size)
{
    int number;
    if (size < 0 && !is_interruption()) fault("receive");
    if (size < 0) return;
    memcpy(&number, message, sizeof number);
    received[number]++;
}

/* A call that blocks is left by a jump. A message may come in that moment, so the queue is one to which nobody sends. */
static void jump_out(mqd_t of)
{
    char message[16];
    if (sigsetjmp(back, 1)) return;
    may_jump = 1;
    struct timespec until = in_ms(20);
    mq_timedreceive(of, message, sizeof message, NULL, &until);
    may_jump = 0;
}

static void *receive_all(void *arg)
{
    char message[16];
    int which = 0;
    while (!is_over) {
        struct timespec until = in_ms(30);
        take(message, ++which % 2 ? mq_receive(q, message, sizeof message, NULL) : mq_timedreceive(q, message, sizeof message, NULL, &until));
        if (which % 8 == 0) jump_out(empty);
    }
    return arg;
}

static void *post_all(void *arg)
{
    while (!is_over) {
        if (sem_post(s) == 0) posts++;
        else fault("post");
        pause_ms(1);
    }
    return arg;
}

static void *wait_all(void *arg)
{
    for (int which = 0; !is_over; which++) {
        struct timespec until = in_ms(30);
        int r = which % 2 ? sem_wait(s) : sem_timedwait(s, &until);
        if (r == 0) waits++;
        else if (!is_interruption()) fault("wait");
    }
    return arg;
}

/* Takes all that is left, until nothing more comes. */
static void drain(void)
{
    char message[16];
    for (struct timespec until = in_ms(DRAIN_MS); ; until = in_ms(500)) {
        ssize_t size = mq_timedreceive(q, message, sizeof message, NULL, &until);
        if (size < 0 && errno == ETIMEDOUT) break;
        take(message, size);
    }
    for (struct timespec until = in_ms(500); sem_timedwait(s, &until) == 0; until = in_ms(500)) waits++;
}

static void judge(void)
{
    int sent = 0, lost = 0, twice = 0, unknown = 0;
    for (int i = 0; i < MESSAGES_MAX; i++) {
        sent += states[i] == SENT;
        unknown += states[i] == UNKNOWN && received[i];
        lost += states[i] == SENT && !received[i];
        twice += received[i] > 1;
    }
    printf("lost %d, twice %d, posts lost %d, faults %d\n", lost, twice, posts - waits, faults);
    fprintf(stderr, "storm: %d sent, %d sent by calls that ended, %d posts, %d forks\n", sent, unknown, posts, forks);
}

int main(int argc, char **argv)
{
    static void *(*const jobs[])(void *) = { send_all, receive_all, post_all, wait_all };
    struct timespec pause = { 0, 2000000 };
    sigset_t set;
    q = new_queue("/storm", 10, 16);
    empty = new_queue("/storm-empty", 1, 16);
    s = new_semaphore("/storm", 0);
    handle(SIGUSR1, nothing, 0);
    handle(SIGUSR2, jump_or_fork, SA_RESTART);
    handle(SIGCHLD, SIG_IGN, 0);
    for (int i = 0; i < 4 * PAIRS; i++) pthread_create(&threads[i], NULL, jobs[i % 4], NULL);
    sigfillset(&set);
    pthread_sigmask(SIG_SETMASK, &set, NULL);
    puts("ready");
    fflush(stdout);
    double end = seconds() + (argc > 1 ? atof(argv[1]) : 2);
    for (unsigned i = 0; seconds() < end; i++) {
        pthread_kill(threads[i * 7 % (4 * PAIRS)], i % 3 ? SIGUSR1 : SIGUSR2);
        nanosleep(&pause, NULL);
    }
    is_over = 1;
    for (int i = 0; i < 4 * PAIRS; i++) {
        struct timespec soon;
        do {   /* until it has seen the end */
            pthread_kill(threads[i], SIGUSR1);
            soon = in_ms(20);
        } while (pthread_timedjoin_np(threads[i], NULL, &soon) != 0);
    }
    drain();
    judge();
    return 0;
}
