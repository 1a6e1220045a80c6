/* waits.c HOW MESSAGES: how long it takes from a send in one process until another that waits for the message goes on. HOW: poll; taken, by
 * poll too, while a third process has the registration; receive, by mq_receive. It prints the median and the longest in microseconds. Each
 * message is sent a random time of up to 25 ms after the process waits. */
#include "cases/case.h"

#include <poll.h>
#include <sys/prctl.h>

enum { LONGEST_PAUSE_US = 25000, WAIT_MS = 10000 };

static mqd_t q;

static int by_time(const void *a, const void *b)
{
    double x = *(const double *)a, y = *(const double *)b;
    return (x > y) - (x < y);
}

/* Sends the time for each byte that comes. */
static void send_times(int order)
{
    char byte;
    unsigned seed = 1;
    while (read(order, &byte, 1) == 1) {
        struct timespec pause = { 0, rand_r(&seed) % LONGEST_PAUSE_US * 1000L };
        nanosleep(&pause, NULL);
        double now = seconds();
        if (mq_send(q, (char *)&now, sizeof now, 0) < 0) _exit(1);
    }
    _exit(0);
}

/* Has the registration, and takes it again whenever a notice has ended it. */
static void hold_registration(int told)
{
    struct sigevent event = { .sigev_notify = SIGEV_SIGNAL, .sigev_signo = SIGUSR1 };
    sigset_t set;
    int signal;
    prctl(PR_SET_PDEATHSIG, SIGKILL);
    sigemptyset(&set);
    sigaddset(&set, SIGUSR1);
    sigprocmask(SIG_BLOCK, &set, NULL);
    if (mq_notify(q, &event) < 0 || write(told, "", 1) != 1) _exit(1);
    while (sigwait(&set, &signal) == 0)
        while (mq_notify(q, &event) < 0 && errno == EBUSY) pause_ms(1);
    _exit(1);
}

static void begin_holding(void)
{
    int told[2];
    char byte;
    if (pipe(told) < 0) exit(2);
    if (fork() == 0) hold_registration(told[1]);
    if (read(told[0], &byte, 1) != 1) exit(2);
}

/* Waits for a message, and gives how long ago it was sent. */
static double wait_once(int by_poll)
{
    double sent, came = 0;
    struct pollfd p = { q, POLLIN, 0 };
    if (by_poll && poll(&p, 1, WAIT_MS) != 1) return -1;
    if (by_poll) came = seconds();
    if (mq_receive(q, (char *)&sent, sizeof sent, NULL) != sizeof sent) return -1;
    return (by_poll ? came : seconds()) - sent;
}

int main(int argc, char **argv)
{
    int order[2], count = argc > 2 ? atoi(argv[2]) : 0, by_poll = argc > 2 && strcmp(argv[1], "receive");
    double *times = calloc((size_t)count + 1, sizeof *times);
    if (count < 1 || !times || pipe(order) < 0) return 2;
    q = new_queue("/waits", 10, sizeof(double));
    if (fork() == 0) {
        close(order[1]);
        send_times(order[0]);
    }
    if (!strcmp(argv[1], "taken")) begin_holding();
    for (int i = 0; i < count; i++) {
        if (write(order[1], "", 1) != 1) return 2;
        if ((times[i] = wait_once(by_poll)) < 0) {
            printf("message %d didn't come\n", i);
            return 1;
        }
    }
    close(order[1]);
    qsort(times, (size_t)count, sizeof *times, by_time);
    printf("%.0f %.0f\n", times[count / 2] * 1e6, times[count - 1] * 1e6);
    mq_unlink("/waits");
    free(times);
    return 0;
}
