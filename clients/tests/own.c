/* own.c: connections without a key, at a socket of a user's own. Beside tests/with_server with SOCKET=users it is root, which may open each. */
#include "../c/connection.h"

#include <errno.h>
#include <limits.h>
#include <stdio.h>
#include <stdlib.h>
#include <string.h>
#include <sys/un.h>
#include <sys/wait.h>
#include <unistd.h>

enum { BOUND_MS = 200, LONG_MS = 20000, NOBODY_S_ID = 61199 };   /* no account has this ID */

static int checks, faults;

#define CHECK(condition) do { \
        checks++; \
        if (!(condition)) { \
            faults++; \
            printf("line %d: not so: %s (errno %s)\n", __LINE__, #condition, strerrorname_np(errno)); \
        } \
    } while (0)

/* The server says `started` by itself, and gets no hello. */
static void attached(void)
{
    static const struct { uint8_t bytes[16]; size_t size; int error; } answers[] = {
        { { 0 }, 0, ETIMEDOUT }, { { 0, 0, 0, 3, REFUSED, 0, 31 }, 7, EACCES }, { { 'S', 'S', 'H', '-', '2', '.', '0' }, 7, EPROTO },
        { { 0, 0, 0, 1, DONE }, 5, EPROTO }, { { 0, 0, 0, 9, STARTED, 0, 0, 0, 0, 0, 0, 0, 5 }, 13, 0 },
    };
    for (size_t i = 0; i < sizeof answers / sizeof *answers; i++) {
        int ends[2];
        char byte;
        if (socketpair(AF_UNIX, SOCK_STREAM, 0, ends) < 0) abort();
        CHECK(write(ends[1], answers[i].bytes, answers[i].size) == (ssize_t)answers[i].size);
        struct mqs *c = mqs_attach(ends[0], NULL, BOUND_MS);
        CHECK(answers[i].error ? !c && errno == answers[i].error : c && mqs_session(c) == 5);
        CHECK(recv(ends[1], &byte, 1, MSG_DONTWAIT) <= 0);
        mqs_disconnect(c);
        close(ends[1]);
    }
}

static int refuses(const char *address, const char *key, int error)
{
    errno = 0;
    return !mqs_connect(address, key, LONG_MS) && errno == error;
}

static int opens(const char *address, const char *key)
{
    uint64_t queue;
    struct mqs *c = mqs_connect(address, key, LONG_MS);
    int r = c && mqs_mq_open(c, "/own", MQS_BOTH, MQS_CREATE, 0600, NULL, &queue) == 0;
    mqs_disconnect(c);
    return r;
}

/* Runs as a user who has no account. */
static int by_nobody(int (*f)(const char *address), const char *address)
{
    pid_t child = fork();
    if (child < 0) abort();
    if (child == 0) _exit(setgid(NOBODY_S_ID) == 0 && setuid(NOBODY_S_ID) == 0 && f(address) ? 0 : 1);
    int status;
    return waitpid(child, &status, 0) == child && status == 0;
}

static int has_no_name(const char *address) { return refuses(address, NULL, ENXIO); }
static int is_another_s(const char *address) { return refuses(address, NULL, EACCES); }

/* `address` is unix-user:DIR/ann. */
static void connected(const char *address)
{
    char folder[PATH_MAX], other[PATH_MAX + 16], longest[PATH_MAX];
    snprintf(folder, sizeof folder, "%.*s", (int)(strrchr(address, '/') - address), address);
    CHECK(opens(address, NULL) && opens(address, "any"));
    CHECK(opens(folder, NULL));
    CHECK(by_nobody(has_no_name, folder) && by_nobody(is_another_s, address));
    snprintf(other, sizeof other, "%s/absent", folder);
    CHECK(refuses(other, NULL, ECONNREFUSED));
    CHECK(refuses("unix-user:", NULL, ECONNREFUSED) && refuses("unix-user:/dev/null", NULL, ECONNREFUSED));
    memset(longest, '/', sizeof longest - 1);
    memcpy(longest, "unix-user:", 10);
    longest[10 + sizeof ((struct sockaddr_un *)NULL)->sun_path] = 0;
    CHECK(refuses(longest, NULL, EINVAL));
}

int main(void)
{
    const char *address = getenv("MQSERVE");
    CHECK(refuses("127.0.0.1:1", NULL, EINVAL) && refuses("unix:/dev/null", NULL, EINVAL));
    attached();
    connected(address);
    printf("own: %d checks, %d faults\n", checks, faults);
    return faults ? 1 : 0;
}
