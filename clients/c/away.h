/* away.h: calls whose threads don't wait for their answers. For libmqserve-preload, and for connection.c, which reads answers. */
#ifndef AWAY_H
#define AWAY_H

#include "connection.h"

/* A call whose thread runs handlers of signals while its answer is to come, or has left it. The answer is kept for it. One thread at a time
 * uses these calls, of whatever connection. */
struct away {
    int op, started, is_timed, is_left;
    uint64_t target;            /* the description */
    size_t asked;
    deadline end;
    size_t room, size;          /* the frame of the answer, once it is there */
    uint8_t frame[];
};

/* Leaves the call whose answer is awaited, so that others may be made. NULL: no memory. */
struct away *mqsi_go_away(struct mqs *c, deadline end);

/* Waits for the answer to the call that was left, and keeps it. Returns that call, or NULL if no answer comes; errno says why. */
struct away *mqsi_settle_away(struct mqs *c);

/* The call goes on, and its answer is awaited again or stands in front. The record is freed. */
int mqsi_come_back(struct mqs *c, struct away *a);
void mqsi_end_away(struct away *a);

/* Whether a message of this size may be its answer. */
int mqsi_is_for_away(const struct mqs *c, size_t size);

#endif
