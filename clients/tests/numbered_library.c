/* numbered_library.c: a sender or a receiver of tests/server_kills over libmqserve. */
#define THREADS 1
#include "../c/mqserve.h"
#include "numbered.h"

static struct mqs *c;
static uint64_t queue, semaphore;

static int begin(const char *queue_name, const char *semaphore_name)
{
    c = mqs_connect(getenv("MQSERVE"), getenv("MQSERVE_KEY"), 5000);
    if (!c || mqs_set_reconnect(c, atof(getenv("MQSERVE_RECONNECT"))) < 0) return -1;
    if (mqs_mq_open(c, queue_name, MQS_BOTH, 0, 0, NULL, &queue) < 0) return -1;
    return mqs_sem_open(c, semaphore_name, 0, 0, 0, &semaphore);
}

static int send_one(const char *message) { return mqs_mq_send(c, queue, message, strlen(message), 0, NULL); }

static ssize_t receive_one(char *message, const struct timespec *until)
{
    return mqs_mq_receive(c, queue, message, MESSAGE, NULL, until);
}

static int post_one(void) { return mqs_sem_post(c, semaphore); }
static int wait_one(const struct timespec *until) { return mqs_sem_wait(c, semaphore, until); }
static unsigned long count_repeated(void) { return mqs_receives_repeated(c); }
