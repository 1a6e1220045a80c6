/* fuzzed_preload.c SEED TAG [ring]: calls of <mqueue.h> and <semaphore.h>, as a seed draws them, to a server whose answers are disturbed on
 * their way. With `ring` a signal ends calls that wait without an end; else each call has a moment. */
#include <dirent.h>
#include <dlfcn.h>
#include <mqueue.h>
#include <poll.h>
#include <pthread.h>
#include <semaphore.h>
#include <sys/wait.h>

#include "fuzzed.h"

enum { NAME_ROOM = 64, CLOSED = -1 };

static mqd_t queue = CLOSED;
static sem_t *semaphore = SEM_FAILED;
static char queue_name[NAME_ROOM], semaphore_name[NAME_ROOM];
static int rings;

static void open_queue(void)
{
    struct mq_attr small = { .mq_maxmsg = 3, .mq_msgsize = ROOM };
    int flags = O_RDWR | O_CREAT | (below(4) ? 0 : O_EXCL) | (below(3) ? 0 : O_NONBLOCK);
    if (queue != CLOSED) TRY(mq_close(queue), 0);
    began = seconds();
    queue = mq_open(queue_name, flags, 0600, below(8) ? &small : NULL);
    judge("mq_open", queue == CLOSED ? -1 : 0, 0);
}

static void open_semaphore(void)
{
    if (semaphore != SEM_FAILED) TRY(sem_close(semaphore), 0);
    began = seconds();
    semaphore = sem_open(semaphore_name, O_CREAT, 0600, (unsigned)below(3));
    judge("sem_open", semaphore == SEM_FAILED ? -1 : 0, 0);
}

static ssize_t receive_into(size_t room, const struct timespec *until)
{
    unsigned priority;
    char *data = malloc(room + (room == 0));   /* its end is watched */
    ssize_t size = until ? mq_timedreceive(queue, data, room, &priority, until) : mq_receive(queue, data, room, NULL);
    int error = errno;
    free(data);
    errno = error;
    return size;
}

static void receive(const struct timespec *until)
{
    size_t room = below(4) ? ROOM : below(2 * ROOM);
    TRY(receive_into(room, until), (long)room);
}

static void send_some(const struct timespec *until)
{
    char data[ROOM] = "message";
    size_t size = below(ROOM + 1);
    unsigned priority = (unsigned)below(9);
    TRY(until ? mq_timedsend(queue, data, size, priority, until) : mq_send(queue, data, size, priority), 0);
}

static void told(union sigval value) { (void)value; }

static void register_for_notices(void)
{
    static const int ways[] = { SIGEV_NONE, SIGEV_SIGNAL, SIGEV_THREAD };
    struct sigevent event = { .sigev_notify = ways[below(3)], .sigev_signo = SIGUSR1 };
    if (event.sigev_notify == SIGEV_THREAD) event.sigev_notify_function = told;
    TRY(mq_notify(queue, below(3) ? &event : NULL), 0);
}

/* A queue that isn't open too. */
static void wait_by_poll(void)
{
    struct pollfd one = { queue, (short)(below(2) ? POLLIN : POLLIN | POLLOUT), 0 };
    TRY(poll(&one, 1, (int)below(30)), 1);
}

static void unlink_both(void)
{
    TRY(mq_unlink(queue_name), 0);
    TRY(sem_unlink(semaphore_name), 0);
}

/* ---- Another thread, and a child ---- */

static void *receive_beside(void *arg)
{
    ssize_t size = receive_into(ROOM, arg);
    return (void *)(size >= -1 && size <= ROOM && (size >= 0 || is_named(errno)) ? 0 : (long)errno + 1);
}

static void call_beside_a_thread(void)
{
    struct timespec soon = in_ms(50);
    pthread_t thread;
    void *wrong;
    pthread_create(&thread, NULL, receive_beside, &soon);
    send_some(&soon);
    began = seconds();
    while (rings && pthread_tryjoin_np(thread, &wrong) != 0) {
        pthread_kill(thread, SIGALRM);
        usleep(50000);
    }
    if (!rings) pthread_join(thread, &wrong);
    if (seconds() - began > BOUND_S) find("milliseconds", "a thread beside", (long)((seconds() - began) * 1e3));
    if (wrong) find("error", "a thread beside", (long)wrong - 1);
}

static int threads(void)
{
    DIR *folder = opendir("/proc/self/task");
    int count = 0;
    for (struct dirent *one; folder && (one = readdir(folder));) count += one->d_name[0] != '.';
    if (folder) closedir(folder);
    return count;
}

/* The address sanitizer's heap isn't made for fork: if another thread is in it just then, a child's first allocation never ends. The library's
 * own threads are in it now and then. So a program with that heap forks while it has one thread; others have the C library's heap. */
static int may_fork(void) { return !dlsym(RTLD_DEFAULT, "__asan_init") || threads() == 1; }

static void call_in_a_child(void)
{
    struct timespec soon = in_ms(50);
    if (!may_fork()) return;
    pid_t child = fork();
    if (child == 0) {
        findings = 0;
        if (rings) ring_each(40);
        send_some(&soon);
        receive(&soon);
        _exit(findings != 0);
    }
    int status;
    began = seconds();
    while (waitpid(child, &status, 0) < 0 && errno == EINTR);
    if (seconds() - began > 2 * BOUND_S) find("milliseconds", "a child", (long)((seconds() - began) * 1e3));
    if (status) find("status", "a child", status);
}

/* ---- Calls ---- */

static void call_of_semaphore(const struct timespec *until)
{
    int value;
    switch (below(6)) {
    case 0: case 1: TRY(sem_post(semaphore), 0); break;
    case 2: case 3: TRY(until ? sem_timedwait(semaphore, until) : sem_wait(semaphore), 0); break;
    case 4: TRY(sem_trywait(semaphore), 0); break;
    default: TRY(sem_getvalue(semaphore, &value), 0);
    }
}

static void call(void)
{
    struct mq_attr attributes = { .mq_flags = below(2) ? O_NONBLOCK : 0 }, old;
    struct timespec soon = in_ms((long)below(30)), *until = rings && below(2) ? NULL : &soon;
    switch (below(21)) {
    case 0: open_queue(); break;
    case 1: open_semaphore(); break;
    case 2: case 3: case 4: case 5: send_some(until); break;
    case 6: case 7: case 8: case 9: receive(until); break;
    case 10: TRY(mq_getattr(queue, &attributes), 0); break;
    case 11: TRY(mq_setattr(queue, &attributes, below(2) ? NULL : &old), 0); break;
    case 12: register_for_notices(); break;
    case 13: call_beside_a_thread(); break;
    case 14: if (below(2)) call_in_a_child(); break;
    case 15: if (below(2)) unlink_both(); break;
    case 16: wait_by_poll(); break;
    default: if (semaphore != SEM_FAILED) call_of_semaphore(until);
    }
}

int main(int argc, char **argv)
{
    if (argc < 3) return 2;
    begin(argv[1]);
    signal(SIGUSR1, ignore);
    snprintf(queue_name, sizeof queue_name, "/%s-queue", argv[2]);
    snprintf(semaphore_name, sizeof semaphore_name, "/%s-semaphore", argv[2]);
    rings = argc > 3;
    if (rings) ring_each(40);
    double start = seconds();
    for (int i = 0; i < CALLS && seconds() - start < LONGEST_MS / 1e3; i++) {
        renew_own();
        if (queue == CLOSED || below(20) == 0) open_queue();
        if (semaphore == SEM_FAILED) open_semaphore();
        call();
    }
    return finish();
}
