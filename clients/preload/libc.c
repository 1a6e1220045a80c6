/* libc.c: finds the calls that these stand in front of. They serve unnamed semaphores and files, and all where MQSERVE isn't set. */
#include "preload.h"

#include <dlfcn.h>

static struct libc found;

/* POSIX lets the result of dlsym be a function; ISO C has no cast for it. */
#define FIND(name) (*(void **)&found.name = dlsym(RTLD_NEXT, #name))

static void find(void)
{
    FIND(mq_open);
    FIND(mq_close);
    FIND(mq_unlink);
    FIND(mq_getattr);
    FIND(mq_setattr);
    FIND(mq_notify);
    FIND(mq_send);
    FIND(mq_timedsend);
    FIND(mq_receive);
    FIND(mq_timedreceive);
    FIND(sem_open);
    FIND(sem_close);
    FIND(sem_unlink);
    FIND(sem_post);
    FIND(sem_wait);
    FIND(sem_trywait);
    FIND(sem_timedwait);
    FIND(sem_clockwait);
    FIND(sem_getvalue);
    FIND(poll);
    FIND(ppoll);
    FIND(__poll_chk);
    FIND(__ppoll_chk);
    FIND(select);
    FIND(pselect);
    FIND(epoll_ctl);
    FIND(epoll_wait);
    FIND(epoll_pwait);
    FIND(epoll_pwait2);
}

/* They are found at the first call: a constructor of one of the program's libraries may call before this library's own runs. */
const struct libc *libc(void)
{
    static pthread_once_t once = PTHREAD_ONCE_INIT;
    pthread_once(&once, find);
    return &found;
}
