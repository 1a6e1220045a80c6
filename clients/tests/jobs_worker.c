/* jobs_worker.c: a worker or a putter of tests/kills, which is killed at any moment.
 *
 * jobs_worker work POOL FILE MS      takes jobs, works up to MS milliseconds on each, writes its data to the end of FILE, and ends it
 *                                    up to MS milliseconds later
 * jobs_worker early POOL FILE MS     ends it before it works, as it must not
 * jobs_worker put POOL FILE MS NAME  puts NAME-0, NAME-1 and so on, and writes each to the end of FILE once it is put */
#include "../c/mqserve_jobs.h"

#include <errno.h>
#include <fcntl.h>
#include <stdio.h>
#include <stdlib.h>
#include <string.h>
#include <unistd.h>

enum { BOUND_MS = 30000, LOOK_MS = 100, FULL_MS = 20 };

static int file;
static unsigned most_ms;

static void die(const char *what)
{
    perror(what);
    exit(1);
}

static void work_a_while(void)
{
    usleep((useconds_t)(rand() % (int)(1000 * most_ms + 1)));
}

static void write_line(const void *data, size_t size)
{
    char line[64];
    if (size >= sizeof line) exit(1);
    memcpy(line, data, size);
    line[size] = '\n';
    if (write(file, line, size + 1) != (ssize_t)size + 1) die("write");
}

static void work(struct mqs_jobs *pool, int is_early)
{
    struct mqs_job job;
    for (;;) {
        char data[64];
        if (mqs_jobs_take(pool, NULL, &job) < 0) die("take");
        size_t size = job.size < sizeof data ? job.size : 0;
        memcpy(data, job.data, size);
        if (is_early && mqs_jobs_done(pool, &job) < 0) die("done");
        work_a_while();
        write_line(data, size);
        if (is_early) continue;
        work_a_while();     /* killed here it is done twice */
        if (mqs_jobs_done(pool, &job) < 0) die("done");
    }
}

static void put(struct mqs_jobs *pool, const char *name)
{
    char data[64];
    for (int number = 0; ; number++) {
        int size = snprintf(data, sizeof data, "%s-%d", name, number);
        while (mqs_jobs_put(pool, data, (size_t)size) < 0) {
            if (errno != ENOSPC && errno != EMFILE) die("put");
            usleep(1000 * FULL_MS);
        }
        write_line(data, (size_t)size);
        work_a_while();
    }
}

int main(int argc, char **argv)
{
    if (argc < 5) return 2;
    const char *tries = getenv("TRIES");
    srand((unsigned)getpid());
    file = open(argv[3], O_WRONLY | O_APPEND | O_CREAT, 0600);
    most_ms = (unsigned)atoi(argv[4]);
    struct mqs *c = mqs_connect(getenv("MQSERVE"), getenv("MQSERVE_KEY"), BOUND_MS);
    if (file < 0 || !c) die("connect");
    struct mqs_jobs *pool = mqs_jobs_open(c, argv[2], tries ? (unsigned)atoi(tries) : 3, LOOK_MS);
    if (!pool) die("open");
    if (!strcmp(argv[1], "put") && argc > 5) put(pool, argv[5]);
    work(pool, !strcmp(argv[1], "early"));
}
