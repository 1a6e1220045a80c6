/* timeouts.c WAY JOB COUNT NAME: for tests/timeouts, a program that finds nothing COUNT times, by the library (WAY library) or by the
 * calls of <mqueue.h> and <semaphore.h> (WAY calls). JOB: receive from an empty queue, send to a full one, or wait for a semaphore. It
 * says `ready` before and `done` behind, and goes on each time once it has read a line. */
#include "cases/case.h"

#include "../c/mqserve.h"

enum { PAUSE_MS = 20, BOUND_MS = 30000 };

static const char *name;
static char data[64];
static mqd_t queue;
static sem_t *semaphore;
static struct mqs *connection;
static uint64_t description;

static void step(const char *word)
{
    char line[16];
    puts(word);
    fflush(stdout);
    if (!fgets(line, sizeof line, stdin)) exit(1);
}

/* ---- By the library ---- */

static int begin_by_library(const char *job)
{
    struct mqs_attributes one = { 1, sizeof data };
    connection = mqs_connect(getenv("MQSERVE"), getenv("MQSERVE_KEY"), BOUND_MS);
    if (!connection) return -1;
    if (*job == 'w') return mqs_sem_open(connection, name, MQS_CREATE, 0600, 0, &description);
    if (mqs_mq_open(connection, name, MQS_BOTH, MQS_CREATE, 0600, &one, &description) < 0) return -1;
    return *job == 's' ? mqs_mq_send(connection, description, "full", 4, 0, NULL) : 0;
}

static long once_by_library(const char *job, const struct timespec *until)
{
    if (*job == 'w') return mqs_sem_wait(connection, description, until);
    if (*job == 's') return mqs_mq_send(connection, description, "more", 4, 0, until);
    return mqs_mq_receive(connection, description, data, sizeof data, NULL, until);
}

static int end_by_library(const char *job)
{
    return *job == 'w' ? mqs_sem_unlink(connection, name) : mqs_mq_unlink(connection, name);
}

/* ---- By the calls ---- */

static int begin_by_calls(const char *job)
{
    if (*job == 'w') semaphore = new_semaphore(name, 0);
    else queue = new_queue(name, 1, sizeof data);
    return *job == 's' ? mq_send(queue, "full", 4, 0) : 0;
}

static long once_by_calls(const char *job, const struct timespec *until)
{
    if (*job == 'w') return sem_timedwait(semaphore, until);
    if (*job == 's') return mq_timedsend(queue, "more", 4, 0, until);
    return mq_timedreceive(queue, data, sizeof data, NULL, until);
}

static int end_by_calls(const char *job) { return *job == 'w' ? sem_unlink(name) : mq_unlink(name); }

int main(int argc, char **argv)
{
    if (argc < 5) return 2;
    int is_library = !strcmp(argv[1], "library"), count = atoi(argv[3]);
    const char *job = argv[2];
    name = argv[4];
    if ((is_library ? begin_by_library : begin_by_calls)(job) < 0) return 1;
    step("ready");
    for (int i = 0; i < count; i++) {
        struct timespec until = in_ms(PAUSE_MS);
        if ((is_library ? once_by_library : once_by_calls)(job, &until) != -1 || errno != ETIMEDOUT) return 1;
    }
    step("done");
    return (is_library ? end_by_library : end_by_calls)(job) < 0;
}
