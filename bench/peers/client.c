/*
 * client PEER PORT WORK CONNECTIONS SECONDS: sends and receives messages for so long, after a warm-up.
 *
 * WORK is `serial` (a request at a time), `batch` (BATCH sends and receives in one piece) or `pong` (two processes send
 * each other one message to and fro, each waiting for the other's). Each connection has its own thread and queue.
 * Prints how many messages were sent and received a second, and how many in all, the warm-up's too.
 */
#include "peer.h"
#include "sockets.h"

#include <pthread.h>
#include <signal.h>
#include <stdatomic.h>
#include <stdio.h>
#include <stdlib.h>
#include <string.h>
#include <sys/prctl.h>
#include <sys/wait.h>
#include <time.h>
#include <unistd.h>

const char message[] = "a message of sixty-four bytes, which each of these sends anew...";
_Static_assert(sizeof message == MESSAGE + 1, "the message has its length");

/* The warm-up takes so much of the time that is measured. */
static const double WARM_UP = 0.2;

/* Ends a client that hangs. */
static const unsigned MOST_SECONDS = 60;

static const struct peer *const PEERS[] = {&mqserve_peer, &redis_peer, &beanstalkd_peer, &echo_peer, &kernel_peer};

/* One thread, and how many messages it has sent and received; on a cache line of its own. */
struct worker {
    _Alignas(128) atomic_long messages;
    const struct peer *peer;
    void *connection;
    pthread_t thread;
};

static struct worker workers[MOST_QUEUES];
static atomic_int is_over;

void check_message(const char *bytes)
{
    if (memcmp(bytes, message, MESSAGE)) {
        fprintf(stderr, "a message came that was not sent\n");
        exit(1);
    }
}

static void count_messages(struct worker *worker, long count)
{
    atomic_fetch_add_explicit(&worker->messages, count, memory_order_relaxed);
}

static void *work_serially(void *it)
{
    struct worker *worker = it;
    while (!is_over) {
        worker->peer->send(worker->connection);
        worker->peer->receive(worker->connection);
        count_messages(worker, 1);
    }
    return NULL;
}

static void *work_in_batches(void *it)
{
    struct worker *worker = it;
    while (!is_over) {
        worker->peer->batch(worker->connection);
        count_messages(worker, BATCH);
    }
    return NULL;
}

/* A message goes to the other process, and one comes back. */
static void *play_ping(void *it)
{
    struct worker *worker = it;
    while (!is_over) {
        worker->peer->send(worker->connection);
        worker->peer->await(worker->connection);
        count_messages(worker, 2);
    }
    return NULL;
}

/* The other process; it is killed where this one ends. */
static pid_t fork_pong(const struct peer *peer, void *connection)
{
    pid_t parent = getpid(), child = fork();
    if (child < 0)
        fail("fork");
    if (child > 0)
        return child;
    prctl(PR_SET_PDEATHSIG, SIGKILL);
    if (getppid() != parent)
        exit(1);
    alarm(MOST_SECONDS);
    for (;;) {
        peer->await(connection);
        peer->send(connection);
    }
}

static double now(void)
{
    struct timespec time;
    clock_gettime(CLOCK_MONOTONIC, &time);
    return time.tv_sec + time.tv_nsec * 1e-9;
}

static void pause_for(double seconds)
{
    struct timespec time = {.tv_sec = (time_t)seconds, .tv_nsec = (long)((seconds - (time_t)seconds) * 1e9)};
    nanosleep(&time, NULL);
}

static long messages_so_far(int count)
{
    long sum = 0;
    for (int each = 0; each < count; each++)
        sum += atomic_load_explicit(&workers[each].messages, memory_order_relaxed);
    return sum;
}

/* Lets the workers work, and says how many messages a second they made after the warm-up. */
static double measure(void *(*work)(void *), int count, double seconds)
{
    for (int each = 0; each < count; each++)
        if (pthread_create(&workers[each].thread, NULL, work, &workers[each]))
            fail("thread");
    pause_for(seconds * WARM_UP);
    long before = messages_so_far(count);
    double start = now();
    pause_for(seconds);
    long made = messages_so_far(count) - before;
    double spent = now() - start;
    is_over = 1;
    for (int each = 0; each < count; each++)
        pthread_join(workers[each].thread, NULL);
    return made / spent;
}

static const struct peer *peer_of(const char *name)
{
    for (size_t each = 0; each < sizeof PEERS / sizeof *PEERS; each++)
        if (!strcmp(PEERS[each]->name, name))
            return PEERS[each];
    return NULL;
}

static double measure_pong(const struct peer *peer, int port, double seconds)
{
    workers[0].peer = peer;
    workers[0].connection = peer->open(port, 0, 1);
    pid_t other = fork_pong(peer, peer->open(port, 1, 0));
    double rate = measure(play_ping, 1, seconds);
    kill(other, SIGKILL);
    waitpid(other, NULL, 0);
    return rate;
}

static double measure_connections(const struct peer *peer, int port, void *(*work)(void *), int count, double seconds)
{
    for (int each = 0; each < count; each++) {
        workers[each].peer = peer;
        workers[each].connection = peer->open(port, each, each);
    }
    return measure(work, count, seconds);
}

int main(int count, char **words)
{
    const struct peer *peer = count == 6 ? peer_of(words[1]) : NULL;
    if (!peer) {
        fprintf(stderr, "client PEER PORT|PATH WORK CONNECTIONS SECONDS\n");
        return 2;
    }
    if (words[2][0] == '/')
        dialled_file = words[2];
    int port = atoi(words[2]), connections = atoi(words[4]);
    double seconds = atof(words[5]), rate;
    int is_pong = !strcmp(words[3], "pong"), is_batch = !strcmp(words[3], "batch");
    if (connections < 1 || connections > MOST_QUEUES || (is_pong && !peer->await))
        return 2;
    alarm(MOST_SECONDS);
    if (is_pong)
        rate = measure_pong(peer, port, seconds);
    else
        rate = measure_connections(peer, port, is_batch ? work_in_batches : work_serially, connections, seconds);
    printf("%.0f %ld\n", rate, messages_so_far(connections));
    return 0;
}
