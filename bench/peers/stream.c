#include "stream.h"

#include "sockets.h"

#include <errno.h>
#include <stdio.h>
#include <stdlib.h>
#include <string.h>
#include <sys/socket.h>

struct stream *new_stream(int port)
{
    struct stream *stream = calloc(1, sizeof *stream);
    if (!stream)
        fail("memory");
    stream->socket = dial(port);
    return stream;
}

void put(struct request *request, const void *bytes, size_t count)
{
    if (count > sizeof request->bytes - request->length) {
        errno = ENOBUFS;
        fail("request");
    }
    memcpy(request->bytes + request->length, bytes, count);
    request->length += count;
}

void put_text(struct request *request, const char *text)
{
    put(request, text, strlen(text));
}

void send_request(struct stream *stream, const struct request *request)
{
    if (!write_all(stream->socket, request->bytes, request->length))
        fail("write");
}

/* Reads what is there, or waits for it. */
static void read_more(struct stream *stream)
{
    if (stream->start > 0) {
        memmove(stream->bytes, stream->bytes + stream->start, stream->end - stream->start);
        stream->end -= stream->start;
        stream->start = 0;
    }
    size_t room = sizeof stream->bytes - stream->end;
    errno = 0;
    ssize_t count = recv(stream->socket, stream->bytes + stream->end, room, 0);
    if (count <= 0)
        fail("no answer");
    stream->end += count;
}

const char *take(struct stream *stream, size_t count)
{
    while (stream->end - stream->start < count)
        read_more(stream);
    const char *taken = stream->bytes + stream->start;
    stream->start += count;
    return taken;
}

const char *take_line(struct stream *stream)
{
    char *end;
    while (!(end = memmem(stream->bytes + stream->start, stream->end - stream->start, "\r\n", 2)))
        read_more(stream);
    *end = '\0';
    const char *line = stream->bytes + stream->start;
    stream->start += strlen(line) + 2;
    return line;
}

void expect_line(struct stream *stream, const char *words)
{
    const char *line = take_line(stream);
    if (strncmp(line, words, strlen(words))) {
        fprintf(stderr, "the answer is `%s`, not `%s`\n", line, words);
        exit(1);
    }
}
