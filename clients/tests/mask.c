/* mask.c: the mode of a semaphore that is created where no file can be opened, by which the program's mask is told else. */
#include "cases/case.h"

#include "../c/mqserve.h"

#include <sys/resource.h>

static void show_mode(const char *name)
{
    struct mqs_facts facts = { 0 };
    struct mqs *c = mqs_connect(getenv("MQSERVE"), getenv("MQSERVE_KEY"), 10000);
    if (!c || mqs_stat(c, MQS_SEMAPHORES, name, &facts) < 0) exit(2);
    printf("mode: %04o\n", facts.mode);
    mqs_disconnect(c);
}

int main(void)
{
    struct rlimit files, none;
    sem_t *s = new_semaphore("/mask1", 0), *t;
    umask(077);
    getrlimit(RLIMIT_NOFILE, &files);
    none = files;
    none.rlim_cur = 3;
    setrlimit(RLIMIT_NOFILE, &none);
    SHOW(open("/dev/null", O_RDONLY));
    SHOW_SEM(t, sem_open("/mask2", O_CREAT | O_EXCL, 0666, 0));
    setrlimit(RLIMIT_NOFILE, &files);
    show_mode("/mask2");
    printf("mask: %03o\n", umask(0));
    SHOW(sem_close(s) | sem_close(t) | sem_unlink("/mask1") | sem_unlink("/mask2"));
    return 0;
}
