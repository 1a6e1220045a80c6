/* A client's end of a connection: requests go out in one piece, answers are taken as they come. */
#ifndef STREAM_H
#define STREAM_H

#include <stddef.h>

struct stream {
    int socket;
    /* What was read and isn't taken yet. */
    size_t start, end;
    char bytes[1 << 16];
};

/* Bytes that are put together once and sent often. */
struct request {
    size_t length;
    char bytes[4096];
};

struct stream *new_stream(int port);

void put(struct request *request, const void *bytes, size_t count);

void put_text(struct request *request, const char *text);

void send_request(struct stream *stream, const struct request *request);

/* The next bytes of the answer. They stand until something else is taken. */
const char *take(struct stream *stream, size_t count);

/* The next line of the answer, up to its \r\n. It stands until something else is taken. */
const char *take_line(struct stream *stream);

/* Ends the program unless the answer's next line begins with these words. */
void expect_line(struct stream *stream, const char *words);

#endif
