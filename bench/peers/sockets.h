/* Connections over TCP on loopback, or at a file. */
#ifndef SOCKETS_H
#define SOCKETS_H

#include <stddef.h>

/* Says what could not be done, and ends the program with status 1. */
_Noreturn void fail(const char *what);

/* The path of the Unix socket that dial connects to in place of a port, if it isn't null. */
extern const char *dialled_file;

/* A connection to a server on this port, or at that file. */
int dial(int port);

/* Serves connections on this port until the program is ended, each by a thread of its own. */
_Noreturn void serve_connections(int port, void *(*serve)(void *socket));

/* Whether all bytes could be written. */
int write_all(int socket, const char *bytes, size_t count);

#endif
