/* Connections one after another: connect, a first request, its answer, close.
   connects PROTOCOL PLACE COUNT, as of peers.py: prints how many were made in a second. */
#include "sockets.h"

#include <stdio.h>
#include <stdlib.h>
#include <string.h>
#include <sys/socket.h>
#include <time.h>
#include <unistd.h>

struct protocol {
    const char *name, *request;
    size_t request_length, answer_length;
};

/* A hello with the key ka1, answered by `started`; a ping, answered by `+PONG`. */
static const struct protocol PROTOCOLS[] = {
    {"mqserve", "\0\0\0\6\1\0\3ka1", 10, 13},
    {"redis", "PING\r\n", 6, 7},
};

static const struct protocol *protocol_of(const char *name)
{
    for (size_t at = 0; at < sizeof PROTOCOLS / sizeof *PROTOCOLS; at++)
        if (!strcmp(PROTOCOLS[at].name, name))
            return &PROTOCOLS[at];
    fprintf(stderr, "no such protocol\n");
    exit(2);
}

static void read_answer(int from, size_t length)
{
    char bytes[64];
    for (size_t got = 0; got < length;) {
        ssize_t count = recv(from, bytes, length - got, 0);
        if (count <= 0)
            fail("answer");
        got += (size_t)count;
    }
}

static double seconds(void)
{
    struct timespec now;
    clock_gettime(CLOCK_MONOTONIC, &now);
    return (double)now.tv_sec + (double)now.tv_nsec / 1e9;
}

int main(int count, char **words)
{
    if (count != 4) {
        fprintf(stderr, "connects PROTOCOL PLACE COUNT\n");
        return 2;
    }
    const struct protocol *protocol = protocol_of(words[1]);
    int port = atoi(words[2]), wanted = atoi(words[3]);
    if (port == 0)
        dialled_file = words[2];
    double start = seconds();
    for (int made = 0; made < wanted; made++) {
        int one = dial(port);
        if (!write_all(one, protocol->request, protocol->request_length))
            fail("request");
        read_answer(one, protocol->answer_length);
        close(one);
    }
    printf("%.0f\n", wanted / (seconds() - start));
    return 0;
}
