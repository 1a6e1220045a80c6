/* mqserve.h: calls to an mqserve server over one connection. A connection is one session of the server.
 *
 * Errors. A call that fails returns -1 (mqs_connect and mqs_attach: NULL) and sets errno. mqs_rule() then tells the number of
 * the rule that refused it, and 0 where it wasn't the server that refused. mqserve-rules(7) says how to fix each; mqs_errno() is
 * the error of a rule. Each call names the rules that it can meet. Besides, any call can fail with
 *     ECONNRESET    the server ended the connection, or it broke
 *     ECONNABORTED  the server didn't take the request, or didn't answer it, within the connection's bound
 *     EPROTO        what came is no answer to this call
 *     ENOMEM        no memory for the answer
 *     EBUSY         (rule 0) a call was started and isn't finished
 * The first four lose the connection: each later call on it fails with the same error, unless mqs_set_reconnect was called. Rules 1 and 2
 * don't come.
 *
 * Ends. A call that doesn't block ends within the connection's bound. A call that blocks ends when it is served, by its moment
 * or by a signal; the server decides which came first, so a call that fails had no effect. Where a signal ends it, or this side's clock
 * does, it tells the server, and waits for the answer to that at most for the connection's bound. Only where the connection is lost is
 * it unknown what a call did.
 *
 * Moments. Where the server shares this machine's clock (mqs_set_shared_clock) it gets a call's moment along with the call, rounded up to
 * a millisecond, and refuses the call by rule 32 when it comes. Elsewhere this side's clock ends the call, by a request more, and
 * mqs_rule() is then 0. The error is ETIMEDOUT both times, and no call ends before its moment. A moment that has passed, as each before
 * 1970, ends a call that can't be served at once. A server that ends a call before its moment has another clock, and so has one that
 * hasn't ended it two seconds after: this side then ends the call itself, and keeps the moments of later calls on the connection.
 *
 * Units. `until` is a moment of CLOCK_REALTIME, or NULL for no end. Bounds are in milliseconds; 0 is no bound. Sizes are in bytes.
 * A description is the number that an open gave. It belongs to the session that opened it.
 *
 * After a restart. A server with a trail file still has all objects with names. Once mqs_set_reconnect was called, the connection goes on
 * there: descriptions and the socket's number stay. Calls look for the end of the stream before they write, and connect again.
 * - What never left is sent over the new connection. So is what does no harm twice, although it may have been done: opens without
 *   MQS_EXCLUSIVE, closes, unlinks (a name that is gone then counts as removed), mqs_mq_notify, and all that reads or sets modes, owners,
 *   masks, limits and attributes.
 * - mqs_mq_receive is made again too, and mqs_receives_repeated counts it: each time one message may be lost, and none comes twice.
 * - mqs_mq_send, mqs_sem_post, mqs_sem_wait, mqs_sem_trywait, mqs_mq_give, opens with MQS_EXCLUSIVE, and calls in parts whose start
 *   succeeded fail once with ECONNABORTED: it is unknown whether they were done. A call in parts is over then; for a receive, a message may
 *   be lost. The description stays usable.
 * - A call that can't connect in time fails with ECONNRESET (had it perhaps been done, with ECONNABORTED), and a later call tries again. It
 *   fails with mqs_connect's error if that is none that passes, as EACCES. A call with a moment ends two seconds after it at most. While it
 *   connects, any handler of a signal ends a call that blocks.
 * - A description comes back by its name when it is next used. If the name is gone, it fails with ENOENT for good. If this program unlinked
 *   the name, or another session gave the description, it fails with ECONNRESET for good. If another program has made the name again, it is
 *   that object's.
 * - A registration is gone, and gives a last MQS_NOTICE: look at the queue, as after each notice, and register again. Rule 28 is waited out
 *   for as long as calls go on, since the session before may live on for a while.
 *
 * Threads. A connection is for one thread at a time. Different connections are independent of each other. The library keeps
 * nothing besides them, starts no thread, and changes no signal's handling. After fork one process alone may use a connection;
 * mqs_disconnect in the other closes its copy and leaves the session alone. */
#ifndef MQSERVE_H
#define MQSERVE_H

#include <stddef.h>
#include <stdint.h>
#include <sys/types.h>
#include <time.h>

#ifdef __cplusplus
extern "C" {
#endif
#pragma GCC visibility push(default)

#define MQS_VERSION "0.1.0"
#define MQS_VERSION_NUMBER 100   /* 10,000 times the first number, 100 times the second, and the third */

struct mqs;

/* ---- Connections ---- */

/* Connects to `address` and starts a session with `key`. The address is HOST:PORT (a name, or an IP address; [HOST]:PORT for
 * IPv6), or unix:PATH (a socket's path of 1 to 107 bytes), or unix-user:PATH. This last is a socket of the process's user's own, of a
 * server that listens at unix-users:DIR: PATH is the socket, or the folder in which it has the user's name (getpwuid of getuid). Who can
 * open it is its user: `key` isn't used there, and may be NULL. `answer_ms` is the connection's bound, and that of this call but for
 * the look-up of a name.
 * Errors: EINVAL (address, a key of more than 65,535 bytes, or none where one is wanted), EHOSTUNREACH (HOST has no address), EAGAIN (it
 * can't be looked up just now), connect's (ECONNREFUSED also where PATH isn't there; EACCES also where the socket is another user's),
 * ENXIO (PATH is a folder, and the process's user has no passwd entry), EACCES (rule 31: no user has the key), ETIMEDOUT (no answer to
 * the hello: all workers of the server are busy, or this is no server).
 * At unix:PATH the key is told to a process of root's or of this user, and to one of the socket's owner in a folder to which nobody else can
 * write; else EACCES: any user may have put the socket there. A TCP connection is probed while the server says nothing, and ends with
 * ECONNRESET two minutes after its machine vanished. */
struct mqs *mqs_connect(const char *address, const char *key, int answer_ms);

/* The same over a connected stream socket, which then belongs to the connection, and loses O_NONBLOCK; where the call fails it is closed.
 * Without a key (NULL) no hello is sent, and the server's `started` is waited for, as at a socket of a user's own. */
struct mqs *mqs_attach(int fd, const char *key, int answer_ms);

/* Ends the session: the server withdraws its call that blocks and closes all that it had open. NULL does nothing. */
void mqs_disconnect(struct mqs *c);

/* For how many seconds a call goes on after a loss; 0, as at first: it doesn't. Call it before the opens, since what is open already doesn't
 * come back. Errors: EINVAL (seconds isn't from 0 to 1e9; a connection of mqs_attach), ENOMEM. */
int mqs_set_reconnect(struct mqs *c, double seconds);

/* How often a receive was made again that may have been done. */
unsigned long mqs_receives_repeated(const struct mqs *c);

/* The socket, for poll alone. It is readable when more has come. A notice that came along with an answer isn't on it any more: no poll wakes.
 * So call mqs_next_unasked until it gives 0 before each poll:
 *     for (;;) {
 *         while ((r = mqs_next_unasked(c, &what, &description)) == 1) handle(what, description);
 *         if (r < 0) break;
 *         struct pollfd p = { mqs_fd(c), POLLIN, 0 };
 *         poll(&p, 1, -1);
 *     }
 * After a restart the same number is the new socket's; an epoll set has to be told of it once more. */
int mqs_fd(const struct mqs *c);

/* Moves the socket to a number of at least `least`. Errors: EMFILE, EINVAL as fcntl(F_DUPFD_CLOEXEC). */
int mqs_move_fd(struct mqs *c, int least);

/* Sets the connection's bound. */
void mqs_set_bound(struct mqs *c, int answer_ms);

/* Says whether the server's clock is this machine's. At first that goes by the socket's peer, also in mqs_attach: it is where that is a
 * Unix-domain socket (one of socketpair too) or a loopback address, and else it isn't. Say 0 where such a socket leads to another machine,
 * as through a tunnel, and 1 of another machine whose clock agrees with this one's. Counts for calls that begin later. */
void mqs_set_shared_clock(struct mqs *c, int is_shared);

/* The session's number, by which others give it descriptions. It is another one after a restart. */
uint64_t mqs_session(const struct mqs *c);

/* 0, or the error with which the connection was lost, until it is there again. */
int mqs_lost(const struct mqs *c);

/* The MQS_VERSION_NUMBER of the library that runs, which may be later than that of the header. */
int mqs_version(void);

/* The rule that refused the last call on this connection, or 0. */
int mqs_rule(const struct mqs *c);

/* The error of a rule, and its name; EPROTO and "" for a number that is no rule. */
int mqs_errno(int rule);
const char *mqs_rule_name(int rule);

/* ---- Queues ---- */

enum mqs_access { MQS_READ = 1, MQS_WRITE = 2, MQS_BOTH = 3 };
enum mqs_flags { MQS_CREATE = 1, MQS_EXCLUSIVE = 2, MQS_NONBLOCK = 4 };

struct mqs_attributes { uint32_t messages, message_size; };
struct mqs_state { int nonblock; uint32_t messages, message_size, messages_now; };

/* Opens a queue. `mode` and `given` matter where it is created; given NULL: the server's 10 messages of 8,192 bytes.
 * Names may have any length: the server judges them. One of more than 65,535 bytes is ENAMETOOLONG here.
 * Errors: EINVAL (access, flags), rules 4, 5, 11, 13 to 16, 20, 22 to 24. */
int mqs_mq_open(struct mqs *c, const char *name, int access, int flags, unsigned mode, const struct mqs_attributes *given,
                uint64_t *description);
int mqs_mq_close(struct mqs *c, uint64_t description);                       /* rule 8 */
int mqs_mq_unlink(struct mqs *c, const char *name);                          /* rules 4, 5, 11, 13, 16, 17 */

/* Sends. Blocks while the queue is full, unless the description has NONBLOCK. Errors: EMSGSIZE (more bytes than a request has room for:
 * 16,777,279 with a moment that the server gets, else 16,777,287), EFAULT (data isn't the process's memory; where a part of it is, the
 * connection may be lost), EINVAL (until), EINTR, ETIMEDOUT, rules 8, 9, 25, 26, 29, 32. */
int mqs_mq_send(struct mqs *c, uint64_t description, const void *data, size_t size, uint32_t priority,
                const struct timespec *until);

/* Receives into `size` bytes, at least the queue's message size, and returns the message's. Blocks while the queue is empty.
 * priority may be NULL. Errors: EINVAL (until), EINTR, ETIMEDOUT, rules 8, 10, 27, 29, 32. */
ssize_t mqs_mq_receive(struct mqs *c, uint64_t description, void *data, size_t size, uint32_t *priority,
                       const struct timespec *until);

int mqs_mq_getattr(struct mqs *c, uint64_t description, struct mqs_state *state);              /* rule 8 */
int mqs_mq_setattr(struct mqs *c, uint64_t description, int nonblock, struct mqs_state *old);  /* rule 8; old may be NULL */

/* Registers for one notice, or takes that back (`on` 0). Rules 8, 28. */
int mqs_mq_notify(struct mqs *c, uint64_t description, int on);

/* Gives the description to another live session. Rules 8 (also a semaphore's), 24, 33. */
int mqs_mq_give(struct mqs *c, uint64_t description, uint64_t session);

/* ---- Semaphores ---- */

/* Opens a semaphore, with MQS_CREATE and MQS_EXCLUSIVE alone. Errors: EINVAL (flags), rules 4, 5, 11, 13 to 16, 21, 24. */
int mqs_sem_open(struct mqs *c, const char *name, int flags, unsigned mode, uint32_t value, uint64_t *description);
int mqs_sem_close(struct mqs *c, uint64_t description);                      /* rule 8 */
int mqs_sem_unlink(struct mqs *c, const char *name);                         /* rules 4, 5, 11, 13, 16, 17 */
int mqs_sem_post(struct mqs *c, uint64_t description);                       /* rules 8, 30 */
int mqs_sem_trywait(struct mqs *c, uint64_t description);                    /* rules 8, 29 */
int mqs_sem_getvalue(struct mqs *c, uint64_t description, uint32_t *value);  /* rule 8 */

/* Blocks while the value is 0. Errors: EINVAL (until), EINTR, ETIMEDOUT, rules 8, 32. */
int mqs_sem_wait(struct mqs *c, uint64_t description, const struct timespec *until);

/* ---- Names, modes and the trail ---- */

enum mqs_family { MQS_QUEUES = 1, MQS_SEMAPHORES = 2 };

struct mqs_facts { uint32_t owner, group; unsigned mode; };
struct mqs_record { uint64_t place, session; int call, rule; const char *name; size_t name_size; };

/* The session's mask, octal 022 at first. Returns the mask before. */
int mqs_umask(struct mqs *c, unsigned mask);

/* Owner, group and mode of a name's object; name NULL: of the family's directory. owner and group -1: as they are.
 * Errors: EINVAL (family; owner or group out of range), rules 4, 5, 11, 13; of chmod 18, of chown 19. */
int mqs_stat(struct mqs *c, int family, const char *name, struct mqs_facts *facts);
int mqs_chmod(struct mqs *c, int family, const char *name, unsigned mode);
int mqs_chown(struct mqs *c, int family, const char *name, int64_t owner, int64_t group);

/* One page of at most 1,000 names, in the order of creation, from position `start`. Returns how many there were; 0 is the end.
 * `each` gets each name (no zero byte behind it) until it answers other than 0. It must make no call on this connection.
 * Errors: EINVAL (family), rule 12. */
int mqs_list(struct mqs *c, int family, uint32_t start, int (*each)(const char *name, size_t size, void *arg), void *arg);

/* The bytes that a user's queues may take. Rules 6, 7, 21. */
int mqs_set_limit(struct mqs *c, uint32_t user, uint64_t bytes);

/* One page of at most 1,000 records of the trail from place `start`, as mqs_list. session is UINT64_MAX for a hello, call
 * the number of docs/ref/protocol.md, rule 0 where accepted. Rule 6. */
int mqs_audit(struct mqs *c, uint64_t start, int (*each)(const struct mqs_record *record, void *arg), void *arg);

/* ---- What comes unasked ---- */

enum mqs_unasked { MQS_NOTICE = 78, MQS_TAKEN = 79 };

/* The oldest thing that came unasked: 1 with *what, MQS_NOTICE (a message came to the empty queue) or MQS_TAKEN (another
 * session gave this description), and its description. 0 where there is none; doesn't wait, but to connect again where that is set. The
 * newest 1,024 are kept. */
int mqs_next_unasked(struct mqs *c, int *what, uint64_t *description);

/* ---- Calls that block, in parts ----
 *
 * For programs with a loop of their own: start the call; wait, or poll mqs_fd and then wait with a moment that has passed;
 * and finish. No other call may be made in between but mqs_next_unasked. The server knows no moment of these calls.
 *
 * mqs_wait: 0 if the answer is there. -1 if it isn't, with EINTR or ETIMEDOUT; the call then goes on at the server. With `until`
 *     NULL it goes on after a signal whose handler has SA_RESTART; with a moment it ends with EINTR then too. EINVAL: nothing
 *     was started, or `until` is no moment.
 * mqs_wait_bound: the same for a call that can't block, by a description with NONBLOCK: waits for the connection's bound
 *     whatever signals come, and then the connection is lost.
 * mqs_stop: withdraws the call. 1: it is withdrawn and over. 0: its answer came first, and finish takes it.
 * mqs_ask_stop, mqs_finish_stop: mqs_stop in two parts. The first may be called by one thread while another is in mqs_wait, which then
 *     returns 0. EAGAIN: nothing was sent, and it may be called again; ECONNRESET: the connection is lost. The second is for the
 *     thread that waited, and only where the first succeeded.
 * mqs_finish: the call's own outcome; never waits. EAGAIN: the answer isn't there. EINVAL: nothing was started. */
int mqs_start_send(struct mqs *c, uint64_t description, const void *data, size_t size, uint32_t priority);
int mqs_start_receive(struct mqs *c, uint64_t description, size_t size);
int mqs_start_sem_wait(struct mqs *c, uint64_t description);
int mqs_wait(struct mqs *c, const struct timespec *until);
int mqs_wait_bound(struct mqs *c);
int mqs_stop(struct mqs *c);
int mqs_ask_stop(struct mqs *c);
int mqs_finish_stop(struct mqs *c);
int mqs_finish(struct mqs *c);                                                                  /* a send or a semaphore's wait */
ssize_t mqs_finish_receive(struct mqs *c, void *data, size_t size, uint32_t *priority);         /* size: that of its start */

#pragma GCC visibility pop
#ifdef __cplusplus
}
#endif
#endif
