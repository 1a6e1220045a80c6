/* numbered.h: what the senders and receivers of tests/server_kills share. Each message has its sender's name and a number. Each call's outcome
 * is a line of the thread's log, written once it is known:
 *     sent M, unsure M       a send was done; it may have been done
 *     got M, torn            a receive was done; it may have taken a message
 *     posted, post-unsure, waited, wait-unsure
 *     repeated N             how many receives were made again, at the end
 * The library's part, and THREADS, is in the file that includes this. */
#ifndef NUMBERED_H
#define NUMBERED_H

#include <errno.h>
#include <fcntl.h>
#include <pthread.h>
#include <stdarg.h>
#include <stdio.h>
#include <stdlib.h>
#include <string.h>
#include <time.h>
#include <unistd.h>

enum { MESSAGE = 64, NAME_ROOM = 32, LINE = 128, PATH = 256, WAIT_S = 1 };

static int begin(const char *queue, const char *semaphore);
static int send_one(const char *message);
static ssize_t receive_one(char *message, const struct timespec *until);
static int post_one(void);
static int wait_one(const struct timespec *until);
static unsigned long count_repeated(void);

enum { ROLE = 1, NAME, QUEUE, SEMAPHORE, LOG, STOP, PAUSE, WORDS };

static char **words;
static int longest_pause_us;
static _Thread_local int log_file;

static void note(const char *format, ...)
{
    char line[LINE];
    va_list rest;
    va_start(rest, format);
    int size = vsnprintf(line, sizeof line, format, rest);
    va_end(rest);
    if (write(log_file, line, (size_t)size) != size) abort();
}

static void fail(const char *what)
{
    fprintf(stderr, "%s: %s\n", what, strerror(errno));
    exit(1);
}

static int is_there(const char *path) { return access(path, F_OK) == 0; }

static void pause_between(void)
{
    if (longest_pause_us > 0) usleep((useconds_t)(rand() % longest_pause_us));
}

static struct timespec in_a_while(void)
{
    struct timespec t;
    clock_gettime(CLOCK_REALTIME, &t);
    t.tv_sec += WAIT_S;
    return t;
}

/* again: what must not be, a send of unknown outcome is made once more. */
static void send_all(const char *name, const char *stop, int again)
{
    char message[MESSAGE];
    for (int number = 0; !is_there(stop); number++) {
        snprintf(message, sizeof message, "%s-%d", name, number);
        int r;
        while ((r = send_one(message)) < 0 && errno == ECONNABORTED) {
            note("unsure %s\n", message);
            if (!again) break;
        }
        if (r < 0 && errno != ECONNABORTED) fail("send");
        if (r == 0) note("sent %s\n", message);
        r = post_one();
        if (r < 0 && errno != ECONNABORTED) fail("post");
        note(r == 0 ? "posted\n" : "post-unsure\n");
        pause_between();
    }
}

/* Whether the call's moment came, perhaps while the server was away: it had no effect. */
static int is_late(void) { return errno == ETIMEDOUT || errno == ECONNRESET; }

static void receive_all(const char *stop)
{
    char message[MESSAGE];
    for (;;) {
        int is_last = is_there(stop);
        struct timespec until = in_a_while();
        ssize_t size = receive_one(message, &until);
        if (size >= 0) note("got %.*s\n", (int)size, message);
        else if (errno == ECONNABORTED) note("torn\n");
        else if (!is_late()) fail("receive");
        else if (is_last && errno == ETIMEDOUT) break;
        until = in_a_while();
        int r = wait_one(&until);
        if (r < 0 && errno != ECONNABORTED && !is_late()) fail("wait");
        if (r == 0 || errno == ECONNABORTED) note(r == 0 ? "waited\n" : "wait-unsure\n");
        pause_between();
    }
}

static void open_log(const char *path)
{
    log_file = open(path, O_WRONLY | O_APPEND | O_CREAT, 0600);
    if (log_file < 0) fail(path);
}

static void *run(void *number)
{
    char name[NAME_ROOM], log[PATH];
    snprintf(name, sizeof name, "%s.%d", words[NAME], *(int *)number);
    snprintf(log, sizeof log, "%s.%d", words[LOG], *(int *)number);
    open_log(log);
    if (!strcmp(words[ROLE], "receive")) receive_all(words[STOP]);
    else send_all(name, words[STOP], !strcmp(words[ROLE], "again"));
    return NULL;
}

int main(int count, char **given)
{
    pthread_t threads[THREADS];
    int numbers[THREADS];
    if (count != WORDS) return 2;
    words = given;
    srand((unsigned)getpid());
    longest_pause_us = atoi(words[PAUSE]);
    if (begin(words[QUEUE], words[SEMAPHORE]) < 0) fail("begin");
    for (int i = 0; i < THREADS; i++) {
        numbers[i] = i;
        if (pthread_create(&threads[i], NULL, run, &numbers[i])) fail("pthread_create");
    }
    for (int i = 0; i < THREADS; i++) pthread_join(threads[i], NULL);
    open_log(words[LOG]);
    note("repeated %lu\n", count_repeated());
    return 0;
}

#endif
