/* stopped.c [CALL TAG]: a call of <mqueue.h> or <semaphore.h> to a server that stops or ends once this program has said `ready` and got a line. It
 * prints the outcome. TAG stands in the names. Without a call it prints what calls there are. A signal ends a call that waits. */
#include "cases/case.h"

static mqd_t empty, full;
static sem_t *semaphore;
static char data[16], empty_name[64], full_name[64], new_name[64], semaphore_name[64];

static void ring(int number) { (void)number; }

static long as_number(mqd_t q) { return q == (mqd_t)-1 ? -1 : 0; }

static long try_open(void) { return as_number(mq_open(empty_name, O_RDWR)); }
static long try_create(void) { return as_number(mq_open(new_name, O_RDWR | O_CREAT, 0600, NULL)); }
static long try_close(void) { return mq_close(empty); }
static long try_unlink(void) { return mq_unlink(empty_name); }
static long try_getattr(void) { struct mq_attr a; return mq_getattr(empty, &a); }
static long try_setattr(void) { struct mq_attr a = { .mq_flags = O_NONBLOCK }; return mq_setattr(empty, &a, NULL); }
static long try_notify(void) { struct sigevent e = { .sigev_notify = SIGEV_NONE }; return mq_notify(empty, &e); }
static long try_send(void) { return mq_send(empty, "x", 1, 0); }
static long try_send_to_full(void) { return mq_send(full, "x", 1, 0); }
static long try_receive(void) { return mq_receive(full, data, sizeof data, NULL); }
static long try_receive_from_empty(void) { return mq_receive(empty, data, sizeof data, NULL); }
static long try_timedsend(void) { struct timespec t = in_ms(1500); return mq_timedsend(full, "x", 1, 0, &t); }
static long try_timedreceive(void) { struct timespec t = in_ms(1500); return mq_timedreceive(empty, data, sizeof data, NULL, &t); }
static long try_sem_open(void) { return sem_open(new_name, O_CREAT, 0600, 0) == SEM_FAILED ? -1 : 0; }
static long try_sem_close(void) { return sem_close(semaphore); }
static long try_sem_unlink(void) { return sem_unlink(semaphore_name); }
static long try_sem_post(void) { return sem_post(semaphore); }
static long try_sem_wait(void) { return sem_wait(semaphore); }
static long try_sem_trywait(void) { return sem_trywait(semaphore); }
static long try_sem_timedwait(void) { struct timespec t = in_ms(1500); return sem_timedwait(semaphore, &t); }
static long try_sem_getvalue(void) { int value; return sem_getvalue(semaphore, &value); }

static const struct { const char *name; long (*call)(void); } calls[] = {
    { "mq_open", try_open }, { "mq_open of a new queue", try_create }, { "mq_close", try_close }, { "mq_unlink", try_unlink },
    { "mq_getattr", try_getattr }, { "mq_setattr", try_setattr }, { "mq_notify", try_notify }, { "mq_send", try_send },
    { "mq_send that waits", try_send_to_full }, { "mq_receive", try_receive }, { "mq_receive that waits", try_receive_from_empty },
    { "mq_timedsend", try_timedsend }, { "mq_timedreceive", try_timedreceive }, { "sem_open", try_sem_open }, { "sem_close", try_sem_close },
    { "sem_unlink", try_sem_unlink }, { "sem_post", try_sem_post }, { "sem_wait that waits", try_sem_wait }, { "sem_trywait", try_sem_trywait },
    { "sem_timedwait", try_sem_timedwait }, { "sem_getvalue", try_sem_getvalue },
};
enum { COUNT = sizeof calls / sizeof *calls, RING_MS = 1200 };

static long (*call_of(const char *name))(void)
{
    for (int i = 0; i < COUNT; i++)
        if (!strcmp(calls[i].name, name)) return calls[i].call;
    exit(2);
}

static void make_names(const char *tag)
{
    snprintf(empty_name, sizeof empty_name, "/%s-empty", tag);
    snprintf(full_name, sizeof full_name, "/%s-full", tag);
    snprintf(new_name, sizeof new_name, "/%s-new", tag);
    snprintf(semaphore_name, sizeof semaphore_name, "/%s", tag);
}

int main(int argc, char **argv)
{
    char line[16];
    if (argc < 3) {
        for (int i = 0; i < COUNT; i++) puts(calls[i].name);
        return 0;
    }
    long (*call)(void) = call_of(argv[1]);
    make_names(argv[2]);
    empty = new_queue(empty_name, 1, sizeof data);
    full = new_queue(full_name, 1, sizeof data);
    semaphore = new_semaphore(semaphore_name, 0);
    if (mq_send(full, "full", 4, 0) < 0) return 2;
    puts("ready");
    fflush(stdout);
    if (!fgets(line, sizeof line, stdin)) return 2;
    handle(SIGALRM, ring, 0);
    alarm_each(RING_MS);
    long outcome = call();
    int error = errno;
    alarm_each(0);
    printf("%s\n", outcome >= 0 ? "served" : strerrorname_np(error));
    return 0;
}
