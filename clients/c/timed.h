/* timed.h: calls with a moment, in parts, and what came unasked. For the library itself, and for libmqserve-preload, which is linked from
 * the same objects. */
#ifndef TIMED_H
#define TIMED_H

#include "mqserve.h"

/* As mqs_start_send and its like. Where the server shares this machine's clock it gets the moment too, and answers by rule 32 when that
 * comes. Elsewhere, and where `until` is NULL, they are the same. */
int mqsi_start_send(struct mqs *c, uint64_t description, const void *data, size_t size, uint32_t priority, const struct timespec *until);
int mqsi_start_receive(struct mqs *c, uint64_t description, size_t size, const struct timespec *until);
int mqsi_start_sem_wait(struct mqs *c, uint64_t description, const struct timespec *until);

/* Whether the server would get a call's moment, and whether it has that of the call which was started. */
int mqsi_shares_clock(const struct mqs *c);
int mqsi_is_timed(const struct mqs *c);

/* As mqs_wait. Where the server has the moment, its answer is waited for two seconds longer. */
int mqsi_wait_timed(struct mqs *c, const struct timespec *until);

/* Whether the call that just failed was ended by rule 32 before its moment. Then the server's clock isn't this machine's, which is noted:
 * the call is to be made again, and this side keeps its moment. */
int mqsi_was_early(struct mqs *c, const struct timespec *until);

/* How many things came unasked before the answer that was taken last, and how many have been read: neither reads the socket. */
int mqsi_kept(const struct mqs *c);
int mqsi_look(struct mqs *c);

#endif
