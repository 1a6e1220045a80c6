/*
 * least_server PORT: the least server of mqserve's frames, as the limit of what a server of this shape can reach.
 *
 * A thread for each connection, one lock, queues in memory. It knows hello, open, send and receive, and no rules, no
 * priorities and no trail. A frame that it doesn't know, a full queue and a second receive that waits at one queue end
 * the connection.
 */
#include "frames.h"
#include "sockets.h"

#include <pthread.h>
#include <stdint.h>
#include <stdlib.h>
#include <string.h>
#include <sys/socket.h>
#include <unistd.h>

enum {
    QUEUES = 128,
    ROOM = 10,
    LONGEST_MESSAGE = 256,
    LONGEST_NAME = 32,
    LONGEST_ANSWER = HEAD + BEFORE_RECEIVED + LONGEST_MESSAGE,
};

struct connection {
    int socket;
    /* Where its receive waits, or waited last. */
    struct queue *waits_at;
    /* Answers that aren't written yet. */
    size_t unwritten;
    char output[1 << 15];
};

struct message {
    size_t length;
    char bytes[LONGEST_MESSAGE];
};

struct queue {
    size_t name_length;
    char name[LONGEST_NAME];
    size_t first, count;
    struct message messages[ROOM];
    struct connection *waiting;
};

/* A description is a queue's place. The lock is for all of them. */
static struct queue queues[QUEUES];
static size_t queue_count;
static pthread_mutex_t lock = PTHREAD_MUTEX_INITIALIZER;

static int flush(struct connection *connection)
{
    size_t count = connection->unwritten;
    connection->unwritten = 0;
    return write_all(connection->socket, connection->output, count);
}

/* Begins an answer with so many bytes of fields, and gives their place. */
static char *begin_answer(char *at, enum opcode opcode, size_t count)
{
    write_u32(at, (uint32_t)(1 + count));
    at[HEAD] = (char)opcode;
    return at + HEAD + 1;
}

/* The place of these fields in the connection's output. */
static char *answer(struct connection *connection, enum opcode opcode, size_t count)
{
    char *at = connection->output + connection->unwritten;
    connection->unwritten += HEAD + 1 + count;
    return begin_answer(at, opcode, count);
}

static void write_received(char *fields, const char *bytes, size_t count)
{
    write_u32(fields, 0);
    memcpy(fields + 4, bytes, count);
}

static int has_name(const struct queue *queue, const char *name, size_t length)
{
    return queue->name_length == length && !memcmp(queue->name, name, length);
}

/* Finds or makes a queue. -1: there is no room. */
static int find_queue(const char *name, size_t length)
{
    size_t place = 0;
    pthread_mutex_lock(&lock);
    while (place < queue_count && !has_name(&queues[place], name, length))
        place++;
    if (place == queue_count && queue_count < QUEUES) {
        queues[place].name_length = length;
        memcpy(queues[place].name, name, length);
        queue_count++;
    }
    pthread_mutex_unlock(&lock);
    return place < QUEUES ? (int)place : -1;
}

static int open_queue(struct connection *connection, const char *body, size_t length)
{
    size_t name_length = length < 3 || body[1] != 0 ? 0 : (unsigned char)body[2];
    if (name_length == 0 || name_length > LONGEST_NAME || length < 3 + name_length)
        return 0;
    int place = find_queue(body + 3, name_length);
    if (place >= 0)
        write_u64(answer(connection, OPENED, 8), (uint64_t)place);
    return place >= 0;
}

/* The queue of the description in a body of a send or receive. */
static struct queue *queue_of(const char *body, size_t length)
{
    uint64_t description = length < BEFORE_SENT ? QUEUES : read_u64(body + 1);
    return description < QUEUES ? &queues[description] : NULL;
}

/*
 * Writes the message to the connection that waits. This is done under the lock, so that its own thread can't close the
 * socket meanwhile; that thread has written all else before it waited.
 */
static void hand_over(struct queue *queue, const char *bytes, size_t count)
{
    char frame[LONGEST_ANSWER];
    write_received(begin_answer(frame, RECEIVED, 4 + count), bytes, count);
    write_all(queue->waiting->socket, frame, HEAD + BEFORE_RECEIVED + count);
    queue->waiting = NULL;
}

static void store(struct queue *queue, const char *bytes, size_t count)
{
    struct message *message = &queue->messages[(queue->first + queue->count) % ROOM];
    message->length = count;
    memcpy(message->bytes, bytes, count);
    queue->count++;
}

static int send_message(struct connection *connection, const char *body, size_t length)
{
    struct queue *queue = queue_of(body, length);
    if (!queue || length > BEFORE_SENT + LONGEST_MESSAGE)
        return 0;
    const char *bytes = body + BEFORE_SENT;
    size_t count = length - BEFORE_SENT;
    pthread_mutex_lock(&lock);
    int is_sent = queue->waiting || queue->count < ROOM;
    if (queue->waiting)
        hand_over(queue, bytes, count);
    else if (is_sent)
        store(queue, bytes, count);
    pthread_mutex_unlock(&lock);
    if (is_sent)
        answer(connection, SENT, 0);
    return is_sent;
}

/* Under the lock: takes the oldest message, or waits for one. */
static int take_or_wait(struct connection *connection, struct queue *queue)
{
    if (queue->count > 0) {
        const struct message *message = &queue->messages[queue->first];
        write_received(answer(connection, RECEIVED, 4 + message->length), message->bytes, message->length);
        queue->first = (queue->first + 1) % ROOM;
        queue->count--;
        return 1;
    }
    if (queue->waiting)
        return 0;
    connection->waits_at = queue;
    queue->waiting = connection;
    return 1;
}

/* What was answered before a wait is written before it, so that the answers keep their order. */
static int receive_message(struct connection *connection, const char *body, size_t length)
{
    struct queue *queue = queue_of(body, length);
    if (!queue)
        return 0;
    pthread_mutex_lock(&lock);
    if (queue->count == 0 && connection->unwritten > 0) {
        pthread_mutex_unlock(&lock);
        if (!flush(connection))
            return 0;
        pthread_mutex_lock(&lock);
    }
    int is_taken = take_or_wait(connection, queue);
    pthread_mutex_unlock(&lock);
    return is_taken;
}

/* Whether the connection goes on. */
static int step(struct connection *connection, const char *body, size_t length)
{
    if (sizeof connection->output - connection->unwritten < LONGEST_ANSWER && !flush(connection))
        return 0;
    switch (body[0]) {
    case HELLO:
        write_u64(answer(connection, STARTED, 8), 0);
        return 1;
    case MQ_OPEN:
        return open_queue(connection, body, length);
    case MQ_SEND:
        return send_message(connection, body, length);
    case MQ_RECEIVE:
        return receive_message(connection, body, length);
    default:
        return 0;
    }
}

/* Steps the whole frames of these bytes, and says how many bytes they are. -1: the connection ends. */
static ssize_t step_frames(struct connection *connection, const char *bytes, size_t count)
{
    size_t done = 0;
    while (count - done >= HEAD) {
        size_t length = read_u32(bytes + done);
        if (length == 0)
            return -1;
        if (length > count - done - HEAD)
            break;
        if (!step(connection, bytes + done + HEAD, length))
            return -1;
        done += HEAD + length;
    }
    return (ssize_t)done;
}

static void serve_until_end(struct connection *connection)
{
    char input[1 << 16];
    size_t held = 0;
    for (;;) {
        ssize_t count = recv(connection->socket, input + held, sizeof input - held, 0);
        if (count <= 0)
            return;
        held += (size_t)count;
        ssize_t done = step_frames(connection, input, held);
        if (done < 0 || !flush(connection))
            return;
        held -= (size_t)done;
        memmove(input, input + done, held);
    }
}

static void *serve(void *it)
{
    struct connection *connection = calloc(1, sizeof *connection);
    if (!connection)
        fail("memory");
    connection->socket = (int)(intptr_t)it;
    serve_until_end(connection);
    pthread_mutex_lock(&lock);
    if (connection->waits_at && connection->waits_at->waiting == connection)
        connection->waits_at->waiting = NULL;
    pthread_mutex_unlock(&lock);
    close(connection->socket);
    free(connection);
    return NULL;
}

int main(int count, char **words)
{
    if (count != 2)
        return 2;
    serve_connections(atoi(words[1]), serve);
}
