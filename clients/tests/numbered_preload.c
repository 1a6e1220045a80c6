/* numbered_preload.c: a sender or a receiver of tests/server_kills over the preload library. */
#define THREADS 3
#include "numbered.h"

#include <dlfcn.h>
#include <mqueue.h>
#include <semaphore.h>

static mqd_t queue;
static sem_t *semaphore;

static int begin(const char *queue_name, const char *semaphore_name)
{
    queue = mq_open(queue_name, O_RDWR);
    semaphore = sem_open(semaphore_name, 0);
    return queue < 0 || semaphore == SEM_FAILED ? -1 : 0;
}

static int send_one(const char *message) { return mq_send(queue, message, strlen(message), 0); }

static ssize_t receive_one(char *message, const struct timespec *until)
{
    return mq_timedreceive(queue, message, MESSAGE, NULL, until);
}

static int post_one(void) { return sem_post(semaphore); }
static int wait_one(const struct timespec *until) { return sem_timedwait(semaphore, until); }

static unsigned long count_repeated(void)
{
    unsigned long (*repeated)(void);
    *(void **)&repeated = dlsym(RTLD_DEFAULT, "mqserve_receives_repeated");
    return repeated ? repeated() : 0;
}
