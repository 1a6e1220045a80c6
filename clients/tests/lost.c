/* lost.c [gone]: a program that closes the library's sockets. What was open is lost; the next open connects anew. gone: nobody listens at
 * the server's path any more. */
#include "cases/case.h"

#include <sys/socket.h>

/* ---- What a handler takes from the heap, or gives back ---- */

void *__libc_malloc(size_t size);
void *__libc_calloc(size_t count, size_t size);
void *__libc_realloc(void *memory, size_t size);
void __libc_free(void *memory);

static volatile sig_atomic_t is_handler, uses, result, error;
static sem_t *s;

void *malloc(size_t size)
{
    uses += is_handler;
    return __libc_malloc(size);
}

void *calloc(size_t count, size_t size)
{
    uses += is_handler;
    return __libc_calloc(count, size);
}

void *realloc(void *memory, size_t size)
{
    uses += is_handler;
    return __libc_realloc(memory, size);
}

void free(void *memory)
{
    uses += is_handler;
    __libc_free(memory);
}

static void post(int signal)
{
    (void)signal;
    is_handler = 1;
    result = sem_post(s);
    error = errno;
    is_handler = 0;
}

static void post_in_handler(void)
{
    uses = 0;
    raise(SIGUSR1);
    errno = error;
    show("sem_post in a handler", result);
    say("it used the heap", uses);
}

/* ---- Losses ---- */

static void connect_anew(mqd_t q)
{
    for (int fd = 256; fd < 300; fd++) close(fd);
    SHOW(mq_send(q, "x", 1, 0));
    SHOW(sem_post(s));
    mqd_t again = mq_open("/lost", O_RDWR);
    SHOW(mq_send(again, "x", 1, 0));
    SHOW(mq_send(q, "x", 1, 0));
    SHOW(sem_post(s));
    SHOW(mq_close(q) | sem_close(s));
    struct timespec until = in_ms(10000);
    shutdown(256, SHUT_RDWR);   /* the connection for what doesn't block; that for what does lives on */
    SHOW(mq_send(again, "x", 1, 0));
    SHOW(mq_timedsend(again, "x", 1, 0, &until));
    SHOW(mq_close(again) | mq_unlink("/lost") | sem_unlink("/lost"));
}

static void nobody_there(mqd_t q)
{
    struct timespec until = in_ms(10000);
    unlink(strchr(getenv("MQSERVE"), ':') + 1);
    if (fork() == 0) _exit(SHOW(mq_send(q, "x", 1, 0)) == 0);   /* a child connects */
    say("child", end_of_child());
    shutdown(256, SHUT_RDWR);
    SHOW(mq_send(q, "x", 1, 0));
    post_in_handler();
    SHOW(mq_send(q, "x", 1, 0));
    SHOW(sem_timedwait(s, &until));
    SHOW(mq_open("/lost", O_RDWR));
    SHOW(mq_send(q, "x", 1, 0));
    post_in_handler();
    SHOW(mq_close(q) | sem_close(s));
}

int main(int argc, char **argv)
{
    mqd_t q = new_queue("/lost", 2, 16);
    s = new_semaphore("/lost", 0);
    handle(SIGUSR1, post, 0);
    if (argc > 1 && !strcmp(argv[1], "gone")) nobody_there(q);
    else connect_anew(q);
    return 0;
}
