/* going_preload.c: the program of tests/again over the preload library. */
#include "going.h"

#include <dlfcn.h>
#include <fcntl.h>
#include <mqueue.h>
#include <poll.h>
#include <semaphore.h>
#include <signal.h>
#include <sys/wait.h>
#include <unistd.h>

static mqd_t queue[OBJECTS];
static sem_t *semaphore[OBJECTS];
static volatile sig_atomic_t notices;

static void count_notice(int signal)
{
    (void)signal;
    notices++;
}

/* Another handler posts. */
static volatile sig_atomic_t post_error = -1;

static void post_in_handler(int signal)
{
    (void)signal;
    int error = errno;
    post_error = sem_post(semaphore['s']) < 0 ? errno : 0;
    errno = error;
}

static int say_handled(void)
{
    return post_error < 0 ? printf("not yet\n") : printf("%s\n", post_error ? strerrorname_np(post_error) : "ok");
}

static int open_flags(void)
{
    return (has("create") ? O_CREAT : 0) | (has("new") ? O_CREAT | O_EXCL : 0) | (has("nonblock") ? O_NONBLOCK : 0);
}

static int one_of_messages(void)
{
    char data[MESSAGE];
    const struct timespec *until;
    if (is("send")) {
        until = moment(3);
        if (!until) return say(mq_send(queue[letter()], word[2], strlen(word[2]), 0));
        return say(mq_timedsend(queue[letter()], word[2], strlen(word[2]), 0, until));
    }
    if (!is("receive")) return 0;
    until = moment(2);
    if (!until) return say_message(mq_receive(queue[letter()], data, sizeof data, NULL), data);
    return say_message(mq_timedreceive(queue[letter()], data, sizeof data, NULL, until), data);
}

static int open_queue(void)
{
    struct mq_attr given = { .mq_maxmsg = 2, .mq_msgsize = MESSAGE };
    return say(queue[letter()] = mq_open(word[2], (has("read") ? O_RDONLY : O_RDWR) | open_flags(), 0600, &given));
}

static int one_of_queues(void)
{
    struct mq_attr found;
    struct mq_attr nonblock = { .mq_flags = O_NONBLOCK };
    struct sigevent event = { .sigev_notify = SIGEV_SIGNAL, .sigev_signo = SIGUSR1 };
    if (is("queue")) return open_queue();
    if (is("count")) return mq_getattr(queue[letter()], &found) < 0 ? say(-1) : say_number((unsigned long)found.mq_curmsgs);
    if (is("nonblock")) return say(mq_setattr(queue[letter()], &nonblock, NULL));
    if (is("notify")) return say(mq_notify(queue[letter()], &event));
    if (is("unnotify")) return say(mq_notify(queue[letter()], NULL));
    if (is("close")) return say(mq_close(queue[letter()]));
    if (is("unlink")) return say(mq_unlink(word[1]));
    if (!is("poll")) return 0;
    struct pollfd p = { queue[letter()], POLLIN, 0 };
    return poll(&p, 1, atoi(word[2])) < 0 ? say(-1) : say_number((unsigned long)p.revents);
}

static int open_semaphore(void)
{
    sem_t *before = semaphore[letter()], *found = sem_open(word[2], open_flags(), 0600, 0);
    if (found == SEM_FAILED) return say(-1);
    semaphore[letter()] = found;
    return printf(before == found ? "ok the same\n" : "ok\n");
}

static int one_of_semaphores(void)
{
    int value;
    if (is("semaphore")) return open_semaphore();
    if (is("post")) return say(sem_post(semaphore[letter()]));
    if (is("wait")) {
        const struct timespec *until = moment(2);
        return say(until ? sem_timedwait(semaphore[letter()], until) : sem_wait(semaphore[letter()]));
    }
    if (is("try")) return say(sem_trywait(semaphore[letter()]));
    if (is("value")) return sem_getvalue(semaphore[letter()], &value) < 0 ? say(-1) : say_number((unsigned long)value);
    if (is("close-semaphore")) return say(sem_close(semaphore[letter()]));
    if (is("unlink-semaphore")) return say(sem_unlink(word[1]));
    return 0;
}

static int run_commands(void);

/* A child of fork makes the commands that come until an empty line; then its parent goes on. */
static int be_child(void)
{
    fflush(stdout);
    pid_t child = fork();
    if (child == 0) {
        printf("ok\n");
        _exit(run_commands());
    }
    int status;
    waitpid(child, &status, 0);
    return say(0);
}

static int one_of_the_rest(void)
{
    unsigned long (*repeated)(void);
    *(void **)&repeated = dlsym(RTLD_DEFAULT, "mqserve_receives_repeated");
    if (is("repeated")) return repeated ? say_number(repeated()) : printf("none\n");
    if (is("handled")) return say_handled();
    if (is("notices")) return say_number((unsigned long)notices);
    if (is("fork")) return be_child();
    return 0;
}

static int run_commands(void)
{
    while (read_command())
        if (!one_of_messages() && !one_of_queues() && !one_of_semaphores() && !one_of_the_rest()) printf("what?\n");
    return 0;
}

int main(void)
{
    struct sigaction action = { .sa_handler = count_notice, .sa_flags = SA_RESTART };
    struct sigaction posting = { .sa_handler = post_in_handler, .sa_flags = SA_RESTART };
    setvbuf(stdout, NULL, _IOLBF, 0);
    begin_to_hear();
    sigaction(SIGUSR1, &action, NULL);
    sigaction(SIGRTMIN, &posting, NULL);
    printf("ready\n");
    return run_commands();
}
