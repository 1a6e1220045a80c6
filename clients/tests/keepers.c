/* keepers.c [wait]: calls that their moments end, or one of a semaphore alone, and how many threads the program has then: no call starts one
 * to keep its moment. */
#include "cases/case.h"

#include <dirent.h>

static int threads(void)
{
    DIR *tasks = opendir("/proc/self/task");
    int count = 0;
    for (struct dirent *one; (one = readdir(tasks));) count += one->d_name[0] != '.';
    closedir(tasks);
    return count;
}

static void queues(void)
{
    char data[16];
    mqd_t q = new_queue("/keepers", 1, 16);
    struct timespec until = in_ms(20);
    SHOW(mq_timedreceive(q, data, 16, NULL, &until));
    SHOW(mq_send(q, "full", 4, 0));
    until = in_ms(20);
    SHOW(mq_timedsend(q, "more", 4, 0, &until));
    mq_unlink("/keepers");
}

int main(int argc, char **argv)
{
    if (argc < 2 || strcmp(argv[1], "wait")) queues();
    sem_t *s = new_semaphore("/keepers", 0);
    struct timespec until = in_ms(20);
    SHOW(sem_timedwait(s, &until));
    say("threads", threads());
    return sem_unlink("/keepers");
}
