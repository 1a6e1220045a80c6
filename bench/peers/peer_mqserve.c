/* mqserve, or another server of its frames. */
#include "frames.h"
#include "peer.h"
#include "sockets.h"
#include "stream.h"

#include <stdio.h>
#include <stdlib.h>
#include <string.h>

/* The key of the user who sends and receives; peers.py writes the user file. */
static const char KEY[] = "ka1";

/* No less than a queue's message size, which is 8,192 where nothing else is said. */
static const uint32_t BUFFER = 8192;

struct connection {
    struct stream *stream;
    struct request send, receive, batch;
};

static void put_u8(struct request *request, unsigned number)
{
    put(request, &(char){(char)number}, 1);
}

static void put_u32(struct request *request, uint32_t number)
{
    char bytes[4];
    write_u32(bytes, number);
    put(request, bytes, sizeof bytes);
}

static void put_u64(struct request *request, uint64_t number)
{
    char bytes[8];
    write_u64(bytes, number);
    put(request, bytes, sizeof bytes);
}

/* Text of at most 255 bytes. */
static void put_counted(struct request *request, const char *text)
{
    put_u8(request, 0);
    put_u8(request, (unsigned)strlen(text));
    put_text(request, text);
}

static void put_send(struct request *request, uint64_t description)
{
    put_u32(request, BEFORE_SENT + MESSAGE);
    put_u8(request, MQ_SEND);
    put_u64(request, description);
    put_u32(request, 0);
    put(request, message, MESSAGE);
}

static void put_receive(struct request *request, uint64_t description)
{
    put_u32(request, RECEIVE_BODY);
    put_u8(request, MQ_RECEIVE);
    put_u64(request, description);
    put_u32(request, BUFFER);
}

/* The fields of the answer, which must have this opcode and so many bytes of them. */
static const char *expect(struct stream *stream, enum opcode opcode, uint32_t count)
{
    uint32_t length = read_u32(take(stream, HEAD));
    const char *body = take(stream, length);
    if (body[0] != (char)opcode || length != 1 + count) {
        fprintf(stderr, "an answer of opcode %d and %u bytes, not of opcode %u\n", body[0], length, opcode);
        exit(1);
    }
    return body + 1;
}

static void say_hello(struct stream *stream)
{
    struct request hello = {0};
    put_u32(&hello, 1 + 2 + strlen(KEY));
    put_u8(&hello, HELLO);
    put_counted(&hello, KEY);
    send_request(stream, &hello);
    expect(stream, STARTED, 8);
}

/* A description of this queue, which is created if it isn't there. */
static uint64_t open_queue(struct stream *stream, int queue)
{
    char name[16];
    snprintf(name, sizeof name, "/q%d", queue);
    struct request open = {0};
    put_u32(&open, 1 + 2 + strlen(name) + 1 + 1 + 2 + 1);
    put_u8(&open, MQ_OPEN);
    put_counted(&open, name);
    put(&open, "\3\1\1\x80\0", 5); /* to read and write, CREATE, mode 0600, no attributes */
    send_request(stream, &open);
    return read_u64(expect(stream, OPENED, 8));
}

static void *open_mqserve(int port, int to, int from)
{
    struct connection *connection = calloc(1, sizeof *connection);
    if (!connection)
        fail("memory");
    connection->stream = new_stream(port);
    say_hello(connection->stream);
    uint64_t to_desc = open_queue(connection->stream, to);
    uint64_t from_desc = from == to ? to_desc : open_queue(connection->stream, from);
    put_send(&connection->send, to_desc);
    put_receive(&connection->receive, from_desc);
    for (int pair = 0; pair < BATCH; pair++) {
        put_send(&connection->batch, to_desc);
        put_receive(&connection->batch, from_desc);
    }
    return connection;
}

static void expect_message(struct stream *stream)
{
    const char *fields = expect(stream, RECEIVED, 4 + MESSAGE);
    check_message(fields + 4);
}

static void send_message(void *it)
{
    struct connection *connection = it;
    send_request(connection->stream, &connection->send);
    expect(connection->stream, SENT, 0);
}

static void receive_message(void *it)
{
    struct connection *connection = it;
    send_request(connection->stream, &connection->receive);
    expect_message(connection->stream);
}

static void send_and_receive_batch(void *it)
{
    struct connection *connection = it;
    send_request(connection->stream, &connection->batch);
    for (int pair = 0; pair < BATCH; pair++) {
        expect(connection->stream, SENT, 0);
        expect_message(connection->stream);
    }
}

const struct peer mqserve_peer = {
    .name = "mqserve",
    .open = open_mqserve,
    .send = send_message,
    .receive = receive_message,
    .await = receive_message,
    .batch = send_and_receive_batch,
};
