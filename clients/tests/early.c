/* early.c: a library whose constructor uses semaphores and a queue. Preloaded behind libmqserve-preload its constructor runs before that
 * one's, as those of the libraries that a program is linked with do. */
#include "cases/case.h"

static sem_t unnamed;
static mqd_t q;

static void at_exit(void)
{
    SHOW(mq_send(q, "x", 1, 0));
    SHOW(mq_close(q) | mq_unlink("/early"));
}

__attribute__((constructor)) static void begin(void)
{
    const char *address = getenv("MQSERVE");
    SHOW(sem_init(&unnamed, 0, 1));
    SHOW(sem_wait(&unnamed));
    SHOW(sem_post(&unnamed));
    if (!address) return;
    q = new_queue("/early", 2, 16);
    SHOW(mq_send(q, "x", 1, 0));
    atexit(at_exit);
}
