/* manual_mq_notify.c: what the example of mq_notify(3) shows: a thread that starts when a message comes, and takes it. */
#include "case.h"

static sem_t done;

static void take(union sigval given)
{
    mqd_t q = *(mqd_t *)given.sival_ptr;
    struct mq_attr attributes;
    if (mq_getattr(q, &attributes) == -1) perror("mq_getattr");
    char *buffer = malloc((size_t)attributes.mq_msgsize);
    ssize_t size = mq_receive(q, buffer, (size_t)attributes.mq_msgsize, NULL);
    if (size == -1) perror("mq_receive");
    else printf("read %zd bytes: %.*s\n", size, (int)size, buffer);
    free(buffer);
    sem_post(&done);
}

int main(void)
{
    sem_init(&done, 0, 0);
    mqd_t q = new_queue("/manual", 10, 8192);
    struct sigevent event = { .sigev_notify = SIGEV_THREAD, .sigev_notify_function = take, .sigev_value.sival_ptr = &q };
    if (mq_notify(q, &event) == -1) perror("mq_notify");
    fflush(stdout);
    if (fork() == 0) {
        mqd_t other = mq_open("/manual", O_WRONLY);
        _exit(other == (mqd_t)-1 || mq_send(other, "a message", 9, 0) == -1);
    }
    while (sem_wait(&done) == -1 && errno == EINTR);
    say("child", end_of_child());
    mq_unlink("/manual");
    return 0;
}
