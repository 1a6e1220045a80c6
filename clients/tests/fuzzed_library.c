/* fuzzed_library.c SEED TAG [ring]: calls of mqserve.h, as a seed draws them, to a server whose answers are disturbed on their way. With
 * `ring` a signal ends calls that wait without an end; else each call has a moment. A lost connection is made anew. */
#include "../c/mqserve.h"

#include "fuzzed.h"

enum { ANSWER_MS = 100, NAME_ROOM = 64, PAGE = 1000 };

static struct mqs *c;
static uint64_t queue, semaphore;
static char queue_name[NAME_ROOM], semaphore_name[NAME_ROOM];
static int rings;

static int each_name(const char *name, size_t size, void *arg)
{
    for (size_t i = 0; i < size; i++) *(long *)arg += name[i];
    return below(9) == 0;
}

static int connect_anew(const char *address)
{
    mqs_disconnect(c);
    began = seconds();
    c = mqs_connect(address, "ka1", ANSWER_MS);
    judge("mqs_connect", c ? 0 : -1, 0);
    if (!c) return -1;
    if (below(2)) TRY(mqs_move_fd(c, FIRST_OWN), 0);
    if (below(2)) mqs_set_shared_clock(c, 0);
    return 0;
}

static void open_both(void)
{
    struct mqs_attributes small = { 3, ROOM };
    int flags = MQS_CREATE | (below(4) ? 0 : MQS_EXCLUSIVE) | (below(3) ? 0 : MQS_NONBLOCK);
    TRY(mqs_mq_open(c, queue_name, MQS_BOTH, flags, 0600, below(8) ? &small : NULL, &queue), 0);
    TRY(mqs_sem_open(c, semaphore_name, MQS_CREATE, 0600, (uint32_t)below(3), &semaphore), 0);
}

static void receive(const struct timespec *until)
{
    size_t room = below(4) ? ROOM : below(2 * ROOM);
    uint32_t priority;
    char *data = malloc(room + (room == 0));   /* its end is watched */
    TRY(mqs_mq_receive(c, queue, data, room, below(2) ? &priority : NULL, until), (long)room);
    free(data);
}

/* A receive that is started, waited for, perhaps stopped, and finished. */
static void receive_in_parts(void)
{
    struct timespec until = in_ms((long)below(30));
    char *data = malloc(ROOM);
    if (TRY(mqs_start_receive(c, queue, ROOM), 0) == 0) {
        if (TRY(mqs_wait(c, &until), 0) == 0 || TRY(mqs_stop(c), 1) == 0) TRY(mqs_finish_receive(c, data, ROOM, NULL), ROOM);
    }
    free(data);
}

static void take_unasked(void)
{
    int what = MQS_NOTICE;
    uint64_t description;
    while (TRY(mqs_next_unasked(c, &what, &description), 1) == 1)
        if (what != MQS_NOTICE && what != MQS_TAKEN) find("something else unasked", "mqs_next_unasked", what);
}

static void ask_names(void)
{
    struct mqs_facts facts;
    long sum = 0;
    TRY(mqs_list(c, MQS_QUEUES, 0, each_name, &sum), PAGE);
    TRY(mqs_stat(c, MQS_QUEUES, queue_name, &facts), 0);
    TRY(mqs_chmod(c, MQS_SEMAPHORES, semaphore_name, 0600), 0);
    TRY(mqs_umask(c, 0), 0777);
}

static void call(void)
{
    char data[ROOM] = "message";
    uint32_t value;
    struct mqs_state attributes;
    struct timespec soon = in_ms((long)below(30)), *until = rings && below(2) ? NULL : &soon;
    switch (below(17)) {
    case 0: open_both(); break;
    case 1: case 2: case 3: TRY(mqs_mq_send(c, queue, data, below(ROOM + 1), (uint32_t)below(9), until), 0); break;
    case 4: case 5: case 6: receive(until); break;
    case 7: receive_in_parts(); break;
    case 8: TRY(mqs_mq_getattr(c, queue, &attributes), 0); break;
    case 9: TRY(mqs_mq_notify(c, queue, below(3) != 0), 0); break;
    case 10: take_unasked(); break;
    case 11: ask_names(); break;
    case 12: TRY(mqs_sem_post(c, semaphore), 0); break;
    case 13: TRY(mqs_sem_wait(c, semaphore, until), 0); break;
    case 14: TRY(mqs_sem_getvalue(c, semaphore, &value), 0); break;
    case 15: TRY(mqs_mq_setattr(c, queue, below(2), &attributes), 0); break;
    default:
        TRY(mqs_mq_unlink(c, queue_name), 0);
        TRY(mqs_sem_unlink(c, semaphore_name), 0);
    }
}

int main(int argc, char **argv)
{
    if (argc < 3) return 2;
    begin(argv[1]);
    snprintf(queue_name, sizeof queue_name, "/%s-queue", argv[2]);
    snprintf(semaphore_name, sizeof semaphore_name, "/%s-semaphore", argv[2]);
    rings = argc > 3;
    if (rings) ring_each(40);
    double start = seconds();
    for (int i = 0; i < CALLS && seconds() - start < LONGEST_MS / 1e3; i++) {
        renew_own();
        if (c && !mqs_lost(c)) call();
        else if (connect_anew(getenv("MQSERVE")) == 0) open_both();
    }
    mqs_disconnect(c);
    return finish();
}
