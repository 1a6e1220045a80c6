/* The kernel's message queues: no server and no connection, each call is a system call. */
#include "peer.h"
#include "sockets.h"

#include <errno.h>
#include <fcntl.h>
#include <mqueue.h>
#include <stdio.h>
#include <stdlib.h>
#include <unistd.h>

struct connection {
    mqd_t to, from;
};

/* A queue that this process opened, by its number; 0 where it didn't yet, since 0 is standard input. */
static mqd_t opened[MOST_QUEUES];

/* The name goes at once, so that no queue is left behind; those who share a queue are forked after the open. */
static mqd_t open_queue(int queue)
{
    if (opened[queue])
        return opened[queue];
    char name[40];
    snprintf(name, sizeof name, "/bench-peers-%d-%d", (int)getpid(), queue);
    struct mq_attr attributes = {.mq_maxmsg = 10, .mq_msgsize = MESSAGE};
    mqd_t made = mq_open(name, O_RDWR | O_CREAT | O_EXCL, 0600, &attributes);
    if (made < 0 || mq_unlink(name))
        fail("mq_open");
    return opened[queue] = made;
}

static void *open_kernel(int port, int to, int from)
{
    (void)port;
    struct connection *connection = calloc(1, sizeof *connection);
    if (!connection)
        fail("memory");
    connection->to = open_queue(to);
    connection->from = open_queue(from);
    return connection;
}

static void send_message(void *it)
{
    struct connection *connection = it;
    if (mq_send(connection->to, message, MESSAGE, 0))
        fail("mq_send");
}

static void receive_message(void *it)
{
    struct connection *connection = it;
    char bytes[MESSAGE];
    errno = 0;
    if (mq_receive(connection->from, bytes, sizeof bytes, NULL) != MESSAGE)
        fail("mq_receive");
    check_message(bytes);
}

/* Calls can't be asked for in one piece: so many sends, and then so many receives. */
static void send_and_receive_batch(void *it)
{
    for (int sent = 0; sent < BATCH; sent++)
        send_message(it);
    for (int received = 0; received < BATCH; received++)
        receive_message(it);
}

const struct peer kernel_peer = {
    .name = "kernel",
    .open = open_kernel,
    .send = send_message,
    .receive = receive_message,
    .await = receive_message,
    .batch = send_and_receive_batch,
};
