#include "sockets.h"

#include <arpa/inet.h>
#include <netinet/in.h>
#include <netinet/tcp.h>
#include <pthread.h>
#include <stdint.h>
#include <stdio.h>
#include <stdlib.h>
#include <string.h>
#include <sys/socket.h>
#include <sys/un.h>

/* A connection that waits longer for an answer has failed. */
static const struct timeval PATIENCE = {.tv_sec = 10};

_Noreturn void fail(const char *what)
{
    perror(what);
    exit(1);
}

static struct sockaddr_in loopback(int port)
{
    struct sockaddr_in address = {.sin_family = AF_INET, .sin_port = htons(port)};
    address.sin_addr.s_addr = htonl(INADDR_LOOPBACK);
    return address;
}

/* Small pieces leave at once. */
static void send_without_delay(int socket)
{
    int on = 1;
    if (setsockopt(socket, IPPROTO_TCP, TCP_NODELAY, &on, sizeof on))
        fail("TCP_NODELAY");
}

static int dial_port(int port)
{
    struct sockaddr_in address = loopback(port);
    int made = socket(AF_INET, SOCK_STREAM, 0);
    if (made < 0 || connect(made, (struct sockaddr *)&address, sizeof address))
        fail("connect");
    send_without_delay(made);
    return made;
}

static int dial_file(const char *path)
{
    struct sockaddr_un address = {.sun_family = AF_UNIX};
    size_t length = strlen(path);
    if (length >= sizeof address.sun_path)
        fail("path");
    memcpy(address.sun_path, path, length + 1);
    int made = socket(AF_UNIX, SOCK_STREAM, 0);
    if (made < 0 || connect(made, (struct sockaddr *)&address, sizeof address))
        fail("connect");
    return made;
}

const char *dialled_file;

int dial(int port)
{
    int made = dialled_file ? dial_file(dialled_file) : dial_port(port);
    if (setsockopt(made, SOL_SOCKET, SO_RCVTIMEO, &PATIENCE, sizeof PATIENCE))
        fail("SO_RCVTIMEO");
    return made;
}

static int listen_at(int port)
{
    struct sockaddr_in address = loopback(port);
    int made = socket(AF_INET, SOCK_STREAM, 0), on = 1;
    if (made < 0 || setsockopt(made, SOL_SOCKET, SO_REUSEADDR, &on, sizeof on))
        fail("socket");
    if (bind(made, (struct sockaddr *)&address, sizeof address) || listen(made, 128))
        fail("listen");
    return made;
}

_Noreturn void serve_connections(int port, void *(*serve)(void *socket))
{
    int listener = listen_at(port);
    for (;;) {
        int accepted = accept(listener, NULL, NULL);
        if (accepted < 0)
            fail("accept");
        send_without_delay(accepted);
        pthread_t thread;
        if (pthread_create(&thread, NULL, serve, (void *)(intptr_t)accepted))
            fail("thread");
        pthread_detach(thread);
    }
}

int write_all(int socket, const char *bytes, size_t count)
{
    while (count > 0) {
        ssize_t written = send(socket, bytes, count, MSG_NOSIGNAL);
        if (written <= 0)
            return 0;
        bytes += written;
        count -= written;
    }
    return 1;
}
