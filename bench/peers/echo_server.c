/* echo_server PORT: writes back what it reads, with a thread for each connection. */
#include "sockets.h"

#include <stdint.h>
#include <stdlib.h>
#include <sys/socket.h>
#include <unistd.h>

static void *echo(void *it)
{
    int socket = (int)(intptr_t)it;
    char bytes[1 << 16];
    ssize_t count;
    while ((count = recv(socket, bytes, sizeof bytes, 0)) > 0 && write_all(socket, bytes, count))
        ;
    close(socket);
    return NULL;
}

int main(int count, char **words)
{
    if (count != 2)
        return 2;
    serve_connections(atoi(words[1]), echo);
}
