/* beanstalkd: a tube is the queue. A receive is a reserve and a delete, since the delete names what was reserved. */
#include "peer.h"
#include "sockets.h"
#include "stream.h"

#include <stdio.h>
#include <stdlib.h>

struct connection {
    struct stream *stream;
    struct request put, reserve, batch;
};

/* Priority 0, no delay, and a minute to delete what was reserved. */
static const char PUT_LINE[] = "put 0 0 60 64\r\n";
_Static_assert(MESSAGE == 64, "the line has the message's length");

static void put_put(struct request *request)
{
    put_text(request, PUT_LINE);
    put(request, message, MESSAGE);
    put_text(request, "\r\n");
}

static void *open_beanstalkd(int port, int to, int from)
{
    struct connection *connection = calloc(1, sizeof *connection);
    if (!connection)
        fail("memory");
    connection->stream = new_stream(port);
    char lines[64];
    snprintf(lines, sizeof lines, "use q%d\r\nwatch q%d\r\nignore default\r\n", to, from);
    struct request choose = {0};
    put_text(&choose, lines);
    send_request(connection->stream, &choose);
    expect_line(connection->stream, "USING q");
    expect_line(connection->stream, "WATCHING 2");
    expect_line(connection->stream, "WATCHING 1");
    put_put(&connection->put);
    put_text(&connection->reserve, "reserve\r\n");
    for (int pair = 0; pair < BATCH; pair++) {
        put_put(&connection->batch);
        put_text(&connection->batch, "reserve\r\n");
    }
    return connection;
}

/* Reads a reserved message, and puts down the request that deletes it. */
static void expect_message(struct stream *stream, struct request *deletes)
{
    const char *line = take_line(stream);
    unsigned long number;
    if (sscanf(line, "RESERVED %lu 64", &number) != 1) {
        fprintf(stderr, "the answer is `%s`, not RESERVED\n", line);
        exit(1);
    }
    char words[40];
    snprintf(words, sizeof words, "delete %lu\r\n", number);
    put_text(deletes, words);
    check_message(take(stream, MESSAGE + 2));
}

static void put_message(void *it)
{
    struct connection *connection = it;
    send_request(connection->stream, &connection->put);
    expect_line(connection->stream, "INSERTED");
}

static void reserve_and_delete(void *it)
{
    struct connection *connection = it;
    struct request delete;
    delete.length = 0;
    send_request(connection->stream, &connection->reserve);
    expect_message(connection->stream, &delete);
    send_request(connection->stream, &delete);
    expect_line(connection->stream, "DELETED");
}

/* The deletes are a second piece. */
static void put_and_reserve_batch(void *it)
{
    struct connection *connection = it;
    struct request deletes;
    deletes.length = 0;
    send_request(connection->stream, &connection->batch);
    for (int pair = 0; pair < BATCH; pair++) {
        expect_line(connection->stream, "INSERTED");
        expect_message(connection->stream, &deletes);
    }
    send_request(connection->stream, &deletes);
    for (int pair = 0; pair < BATCH; pair++)
        expect_line(connection->stream, "DELETED");
}

const struct peer beanstalkd_peer = {
    .name = "beanstalkd",
    .open = open_beanstalkd,
    .send = put_message,
    .receive = reserve_and_delete,
    .await = reserve_and_delete,
    .batch = put_and_reserve_batch,
};
