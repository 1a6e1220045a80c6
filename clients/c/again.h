/* again.h: going on after a loss of the connection, which mqs_set_reconnect turns on. */
#ifndef AGAIN_H
#define AGAIN_H

#include "connection.h"

/* What the program has open. Its number stays, and the server's is that of the session. */
struct opened {
    struct opened *next;
    uint64_t number, at;
    int is_here;                /* in this session it is open */
    int is_unlinked;            /* by this program: the name may be another object's by now */
    int is_registered;
    int error;                  /* with which each further call fails, or 0 */
    int family, access, flags;
    char *name;                 /* NULL: another session gave it */
};

struct again {
    int64_t patience;           /* for how long a call goes on, in nanoseconds; 0: it doesn't */
    int sessions;               /* how many were begun after the first */
    unsigned long repeated;     /* receives */
    deadline lost_at;
    int has_ended;              /* the session, and what was open there has been told */
    struct opened *opened;
    uint64_t next_number;       /* of an object that is opened after the first session */

    /* Of the call that is made now. */
    deadline end;
    int64_t pause;
    int can_end;                /* by a signal */
    int is_over;                /* it isn't made again; errno says why */
    int is_unknown;             /* an earlier try may have been done */
};

/* ---- again.c ---- */

enum repeat { UNSAFE, SAFE, COUNTED };   /* COUNTED: a receive, by which a message may be lost */

/* At the beginning of each call. until: when it ends, or NULL. */
void mqsi_begin(struct mqs *c, const struct timespec *until, int can_end);

/* Before a try: connects if the connection is lost, and gives the request the session's number of its object. */
int mqsi_prepare(struct mqs *c, struct request *r);

/* After a try that failed: whether another one is to be made. If not, errno says why. */
int mqsi_goes_on(struct mqs *c, enum repeat repeat);

/* The call isn't made again after a loss, and ends with this error. */
void mqsi_end_tries(struct mqs *c, int error);

/* Whether a registration that was refused may be that of the session before. It then has waited a little. */
int mqsi_outlives(struct mqs *c);

/* Connects if the connection is lost. First what was open there is told: last notices are then unasked. */
int mqsi_renew(struct mqs *c);

/* The error of a call in parts that failed by `result`: on a lost connection it is unknown whether it was done. */
ssize_t mqsi_in_parts(struct mqs *c, ssize_t result);

void mqsi_end_again(struct mqs *c);

/* Reads what came unasked, and the end of the stream if that is there: the connection is then lost. */
void mqsi_look_for_end(struct mqs *c);

/* Whether a server may be there in a moment to which a connect failed by this error. */
int mqsi_may_come(int error);

/* ---- opened.c ---- */

/* Room for an object that is about to be opened. NULL if there is no memory, and also if the connection doesn't go on. */
struct opened *mqsi_new_opened(const struct mqs *c, int family, const char *name, int access, int flags);
uint64_t mqsi_keep_opened(struct mqs *c, struct opened *o, uint64_t at);
void mqsi_free_opened(struct opened *o);

struct opened *mqsi_opened(const struct mqs *c, uint64_t number);
void mqsi_forget_opened(struct mqs *c, uint64_t number);
void mqsi_mark_unlinked(struct mqs *c, int family, const char *name);

/* The program's number of what came unasked. */
uint64_t mqsi_number_of(struct mqs *c, int what, uint64_t at);

/* The session has ended. */
void mqsi_end_opened(struct mqs *c);

/* Has the request name its object by the session's number: opens it by its name if it isn't open there. */
int mqsi_translate(struct mqs *c, struct request *r);

#endif
