/* mqserve_jobs.h: jobs that come again. A pool of workers loses no job where one of them, or who puts jobs, is killed (SIGKILL) at
 * any moment: each job is done at least once. All is over the calls of mqserve.h.
 *
 * A job is a queue of its own, /POOL.job-<16 hexadecimal digits>, from the moment in which it is put until it is done: no process has
 * to live for it. A worker claims it by the queue's registration (mqs_mq_notify), which the server ends with the session. So nobody
 * has to be told that a worker died: its job is free, and who looks next claims it. Each try takes one copy of the data; a job
 * that kills its workers is dead once its tries are used up, and waits for mqs_jobs_bury or mqs_jobs_revive. docs/dev/clients.md
 * says why none is lost, and docs/use/jobs.md what a job costs. The Python module mqserve.jobs has the same names and formats: workers in C and
 * Python share a pool.
 *
 * What isn't promised: that a job is done once only, nor any order. A worker that hangs keeps its job, as one that is stopped: kill
 * it. A child of fork that keeps the connection's socket open keeps its claims: let it call mqs_disconnect, or exec. Over TCP the
 * server takes some two minutes to find that a worker's machine vanished.
 *
 * Users. All of a pool's processes are of one user, the owner of the queue /POOL, or of user 0; a job that another put isn't taken.
 *
 * Errors. A call that fails returns -1 (mqs_jobs_open: NULL) and sets errno, to that of the call of mqserve.h which failed, or as is said
 * below; mqs_rule doesn't tell. Where the connection is lost (mqs_lost), all claims are: jobs that were taken come again, though
 * their work goes on. A pool can't be used any more then: close it, connect anew and open it again.
 *
 * Connections. A pool is for one thread at a time, as its connection. Give it one of its own: notices for queues of the pool come on
 * it (mqs_next_unasked), which mean nothing. Its mask must leave 0600, as the first mask does. mqs_jobs_open sets mqs_set_reconnect to 0;
 * leave it so: a claim that ended unseen could lose a job. */
#ifndef MQSERVE_JOBS_H
#define MQSERVE_JOBS_H

#include "mqserve.h"

#ifdef __cplusplus
extern "C" {
#endif
#pragma GCC visibility push(default)

enum { MQS_JOB_NAME = 257 };

struct mqs_jobs;

/* A job that was taken: its name, its data, which the library keeps, and how many tries there are after this one. */
struct mqs_job {
    char name[MQS_JOB_NAME];
    void *data;
    size_t size;
    unsigned tries_left;
    uint64_t queue;     /* the description that has the claim */
};

/* The pool of a name, whose queue is created where it isn't there. `tries`: how often a job that is put here is tried; `look_ms`: how
 * many milliseconds pass at most before a worker that waits looks for jobs whose workers are gone; more where the system's clock is set
 * back meanwhile, by as much. Errors: EINVAL (tries or look_ms is 0, or tries above 2,147,483,647), ENAMETOOLONG (more than 235 bytes),
 * EPERM or EACCES (another user's pool), mqs_mq_open's. */
struct mqs_jobs *mqs_jobs_open(struct mqs *c, const char *name, unsigned tries, unsigned look_ms);

/* Frees the pool and closes its queue; the connection stays. Jobs that are taken are to be done or given back before. NULL does
 * nothing. */
void mqs_jobs_close(struct mqs_jobs *pool);

/* Puts a job. Once it has returned 0, the job is done at least once, or waits as a dead one. Refused, it left nothing. Where the
 * connection was lost or the process killed, the job may be there.
 * Errors: EINVAL (rule 20: the data is longer than a message may be, or tries + 2 more than a queue may have), ENOSPC (rule 22),
 * EMFILE (rules 23 and 24), EMSGSIZE (more than 4,294,967,295 bytes), mqs_mq_open's others. */
int mqs_jobs_put(struct mqs_jobs *pool, const void *data, size_t size);

/* Takes a job, which is claimed until it is done or given back, or the connection ends. Waits for it until a moment; with one that has
 * passed it looks through all jobs once. Where it fails, nothing is taken.
 * Errors: ETIMEDOUT, EINTR, EINVAL (until), ENOMEM, EACCES (rules 11 and 12), EMFILE (rule 24). */
int mqs_jobs_take(struct mqs_jobs *pool, const struct timespec *until, struct mqs_job *job);

/* The work is done: the job is over, and its data is freed. Where it fails, the job is still taken; where the connection was lost it may
 * come again. mqs_jobs_give_back frees it then. Errors: EACCES (rules 11, 16 and 17), EBADF (it is over, or was given back). */
int mqs_jobs_done(struct mqs_jobs *pool, struct mqs_job *job);

/* The work wasn't done: the job comes again, if it has tries left. Frees its data, also where it fails; then the claim ended with the
 * connection. Errors: EBADF as mqs_jobs_done. */
int mqs_jobs_give_back(struct mqs_jobs *pool, struct mqs_job *job);

/* How many jobs there are, by their names: free, taken, dead, and those that are being put. Where the server has more than 1,000 queues,
 * some may be left out if others end meanwhile. Errors: EACCES (rule 12), ENOMEM. */
int mqs_jobs_pending(struct mqs_jobs *pool);

/* Calls `each` for the name of each dead job, whose tries are used up and that nobody is working on, until it answers other than 0.
 * It may bury or revive that job. Returns for how many it was called. Errors: as take. */
int mqs_jobs_dead(struct mqs_jobs *pool, int (*each)(const char *name, void *arg), void *arg);

/* Ends a dead job. Returns the size of its data, and *data, which is to be freed. Nobody else has it then: where the process is killed
 * meanwhile, or the connection lost, the data may be lost. Errors: ENOENT (no dead job has this name, or somebody else has it for the
 * moment, as who calls mqs_jobs_dead), ENOMEM, EACCES. */
ssize_t mqs_jobs_bury(struct mqs_jobs *pool, const char *name, void **data);

/* Puts a dead job's data as a new job, with the pool's tries, and then ends the dead one. Killed meanwhile, it leaves one of them, or both.
 * Refused as put is, it leaves the dead job as it was. Errors: ENOENT (as mqs_jobs_bury), ENODATA (a revive that was killed left its last
 * copy, which mqs_jobs_bury returns), ENOMEM, mqs_jobs_put's. */
int mqs_jobs_revive(struct mqs_jobs *pool, const char *name);

/* Removes what putters that were killed left behind, and returns how much; call it now and then. What is being put stays.
 * Errors: as take. */
int mqs_jobs_sweep(struct mqs_jobs *pool);

#pragma GCC visibility pop
#ifdef __cplusplus
}
#endif
#endif
