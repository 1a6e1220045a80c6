/* What is measured: sends and receives of messages of one size, and how each kind of server is asked for them. */
#ifndef PEER_H
#define PEER_H

enum {
    MESSAGE = 64,
    /* So many sends, each with its receive, are asked for in one piece. */
    BATCH = 8,
    MOST_QUEUES = 64,
};

/* MESSAGE bytes. */
extern const char message[];

/* One kind of server. Each call ends the program where an answer is not the one that must come. */
struct peer {
    const char *name;
    /* A connection that sends to one queue and receives from another, or from the same. */
    void *(*open)(int port, int to, int from);
    void (*send)(void *connection);
    /* Receives a message that is there. */
    void (*receive)(void *connection);
    /* Receives a message that may not be there yet. NULL where nobody else can send one. */
    void (*await)(void *connection);
    /* BATCH sends and BATCH receives. */
    void (*batch)(void *connection);
};

extern const struct peer mqserve_peer, redis_peer, beanstalkd_peer, echo_peer, kernel_peer;

/* Ends the program unless these are the bytes of the message. */
void check_message(const char *bytes);

#endif
