/* A plain echo: as many trips as mqserve's, each with as many bytes in sum, half of them each way. */
#include "frames.h"
#include "peer.h"
#include "sockets.h"
#include "stream.h"

#include <stdlib.h>

enum {
    SEND_TRIP = (HEAD + BEFORE_SENT + MESSAGE) + (HEAD + 1),
    RECEIVE_TRIP = (HEAD + RECEIVE_BODY) + (HEAD + BEFORE_RECEIVED + MESSAGE),
};

struct connection {
    struct stream *stream;
    struct request send, receive, batch;
};

static void *open_echo(int port, int to, int from)
{
    (void)to, (void)from;
    struct connection *connection = calloc(1, sizeof *connection);
    if (!connection)
        fail("memory");
    connection->stream = new_stream(port);
    connection->send.length = SEND_TRIP / 2;
    connection->receive.length = RECEIVE_TRIP / 2;
    connection->batch.length = BATCH * (SEND_TRIP + RECEIVE_TRIP) / 2;
    return connection;
}

static void make_trip(struct stream *stream, const struct request *request)
{
    send_request(stream, request);
    take(stream, request->length);
}

static void trip_of_send(void *it)
{
    struct connection *connection = it;
    make_trip(connection->stream, &connection->send);
}

static void trip_of_receive(void *it)
{
    struct connection *connection = it;
    make_trip(connection->stream, &connection->receive);
}

static void trip_of_batch(void *it)
{
    struct connection *connection = it;
    make_trip(connection->stream, &connection->batch);
}

const struct peer echo_peer = {
    .name = "echo",
    .open = open_echo,
    .send = trip_of_send,
    .receive = trip_of_receive,
    .batch = trip_of_batch,
};
