/* clock.c: moments, and whether the server's clock is the one that they are of. */
#include "connection.h"

#include <netinet/in.h>

enum { LOOPBACK_NET = 127 };

/* ---- Whose clock ---- */

/* Whether a peer is on this machine: a Unix-domain socket, or a loopback address. */
int mqsi_is_here(const struct sockaddr *peer)
{
    if (peer->sa_family == AF_UNIX) return 1;
    if (peer->sa_family == AF_INET) {
        const struct sockaddr_in *at = (const void *)peer;
        return ntohl(at->sin_addr.s_addr) >> 24 == LOOPBACK_NET;
    }
    if (peer->sa_family != AF_INET6) return 0;
    const struct in6_addr *at = &((const struct sockaddr_in6 *)(const void *)peer)->sin6_addr;
    return IN6_IS_ADDR_LOOPBACK(at) || (IN6_IS_ADDR_V4MAPPED(at) && at->s6_addr[12] == LOOPBACK_NET);
}

void mqs_set_shared_clock(struct mqs *c, int is_shared) { c->shares_clock = is_shared != 0; }
int mqsi_shares_clock(const struct mqs *c) { return c->shares_clock; }
int mqsi_is_timed(const struct mqs *c) { return c->started && c->is_timed; }

/* ---- Moments ---- */

int mqsi_is_moment(const struct timespec *until)
{
    return !until || (until->tv_nsec >= 0 && until->tv_nsec < 1000000000);
}

/* The time until the moment, but a second at most, since the clock may be set meanwhile. 0 where it has come. */
struct timespec mqsi_time_left(clockid_t clock, const struct timespec *until)
{
    struct timespec now;
    clock_gettime(clock, &now);
    if (until->tv_sec < now.tv_sec) return (struct timespec){ 0, 0 };
    if (until->tv_sec > now.tv_sec + 1) return (struct timespec){ 1, 0 };
    int64_t left = (until->tv_sec - now.tv_sec) * INT64_C(1000000000) + until->tv_nsec - now.tv_nsec;
    if (left <= 0) return (struct timespec){ 0, 0 };
    return (struct timespec){ left / 1000000000, left % 1000000000 };
}

static int has_come(const struct timespec *until)
{
    struct timespec left = mqsi_time_left(CLOCK_REALTIME, until);
    return left.tv_sec == 0 && left.tv_nsec == 0;
}

/* The deadline of a moment: rounded up, so that no call ends before it, and the last one for all that are later. One that has come is 0,
 * also one before 1970: the server knows the time by its last tick, and what is past may be to come for it. */
uint64_t mqsi_milliseconds(const struct timespec *until)
{
    uint64_t rest = ((uint64_t)until->tv_nsec + 999999) / 1000000;
    if (has_come(until)) return 0;
    if ((uint64_t)until->tv_sec > (UINT64_MAX - rest) / 1000) return UINT64_MAX;
    return (uint64_t)until->tv_sec * 1000 + rest;
}

int mqsi_was_early(struct mqs *c, const struct timespec *until)
{
    if (!until || !c->is_timed || c->rule != TIMED_OUT || has_come(until)) return 0;
    c->shares_clock = 0;
    return 1;
}
