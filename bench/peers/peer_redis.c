/* Redis: a list is the queue. */
#include "peer.h"
#include "sockets.h"
#include "stream.h"

#include <stdio.h>
#include <stdlib.h>
#include <string.h>

struct connection {
    struct stream *stream;
    struct request push, pop, blocking_pop, batch;
};

/* The word that comes before a string of MESSAGE bytes. */
static const char MESSAGE_HEAD[] = "$64";
_Static_assert(MESSAGE == 64, "the word has the message's length");

static void put_word(struct request *request, const char *word)
{
    char head[32];
    snprintf(head, sizeof head, "$%zu\r\n", strlen(word));
    put_text(request, head);
    put_text(request, word);
    put_text(request, "\r\n");
}

static void put_push(struct request *request, const char *queue)
{
    put_text(request, "*3\r\n");
    put_word(request, "RPUSH");
    put_word(request, queue);
    put_text(request, MESSAGE_HEAD);
    put_text(request, "\r\n");
    put(request, message, MESSAGE);
    put_text(request, "\r\n");
}

static void put_pop(struct request *request, const char *queue)
{
    put_text(request, "*2\r\n");
    put_word(request, "LPOP");
    put_word(request, queue);
}

static void put_blocking_pop(struct request *request, const char *queue)
{
    put_text(request, "*3\r\n");
    put_word(request, "BLPOP");
    put_word(request, queue);
    put_word(request, "0");
}

static void *open_redis(int port, int to, int from)
{
    struct connection *connection = calloc(1, sizeof *connection);
    if (!connection)
        fail("memory");
    connection->stream = new_stream(port);
    char to_name[16], from_name[16];
    snprintf(to_name, sizeof to_name, "q%d", to);
    snprintf(from_name, sizeof from_name, "q%d", from);
    put_push(&connection->push, to_name);
    put_pop(&connection->pop, from_name);
    put_blocking_pop(&connection->blocking_pop, from_name);
    for (int pair = 0; pair < BATCH; pair++) {
        put_push(&connection->batch, to_name);
        put_pop(&connection->batch, from_name);
    }
    return connection;
}

static void expect_message(struct stream *stream)
{
    expect_line(stream, MESSAGE_HEAD);
    check_message(take(stream, MESSAGE + 2));
}

static void push_message(void *it)
{
    struct connection *connection = it;
    send_request(connection->stream, &connection->push);
    expect_line(connection->stream, ":");
}

static void pop_message(void *it)
{
    struct connection *connection = it;
    send_request(connection->stream, &connection->pop);
    expect_message(connection->stream);
}

/* It is answered by the list's name and the message. */
static void await_message(void *it)
{
    struct connection *connection = it;
    send_request(connection->stream, &connection->blocking_pop);
    expect_line(connection->stream, "*2");
    expect_line(connection->stream, "$2");
    expect_line(connection->stream, "q");
    expect_message(connection->stream);
}

static void push_and_pop_batch(void *it)
{
    struct connection *connection = it;
    send_request(connection->stream, &connection->batch);
    for (int pair = 0; pair < BATCH; pair++) {
        expect_line(connection->stream, ":");
        expect_message(connection->stream);
    }
}

const struct peer redis_peer = {
    .name = "redis",
    .open = open_redis,
    .send = push_message,
    .receive = pop_message,
    .await = await_message,
    .batch = push_and_pop_batch,
};
