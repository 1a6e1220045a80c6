/* many.c: the library with 500 connections at a time, and with 5,000 names. */
#include "../c/mqserve.h"

#include <errno.h>
#include <stdio.h>
#include <stdlib.h>
#include <string.h>
#include <time.h>

enum { CLIENTS = 500, NAMES = 5000, BOUND_MS = 30000, PAGE = 1000 };

static int checks, faults;
static struct mqs *clients[CLIENTS];

#define CHECK(condition) do { \
        checks++; \
        if (!(condition)) { \
            faults++; \
            if (faults < 20) printf("line %d: not so: %s (errno %s)\n", __LINE__, #condition, strerrorname_np(errno)); \
        } \
    } while (0)

static void connect_all(void)
{
    for (int i = 0; i < CLIENTS; i++) {
        clients[i] = mqs_connect(getenv("MQSERVE"), "ka1", BOUND_MS);
        CHECK(clients[i] != NULL);
        if (!clients[i]) exit(1);
    }
}

/* Each sends a message to the next. */
static void pass_round(void)
{
    uint64_t queues[CLIENTS];
    struct mqs_attributes small = { 2, sizeof(int) };
    for (int i = 0; i < CLIENTS; i++) CHECK(mqs_mq_open(clients[i], "/many", MQS_BOTH, MQS_CREATE, 0600, &small, &queues[i]) == 0);
    for (int i = 0; i < CLIENTS; i++) {
        int number = -1, next = (i + 1) % CLIENTS;
        CHECK(mqs_mq_send(clients[i], queues[i], &i, sizeof i, 0, NULL) == 0);
        CHECK(mqs_mq_receive(clients[next], queues[next], &number, sizeof number, NULL, NULL) == sizeof number && number == i);
    }
    CHECK(mqs_mq_unlink(clients[0], "/many") == 0);
}

/* All but one wait at a semaphore, and each is served by a post. */
static void wait_together(void)
{
    uint64_t semaphores[CLIENTS];
    for (int i = 0; i < CLIENTS; i++) CHECK(mqs_sem_open(clients[i], "/many", MQS_CREATE, 0600, 0, &semaphores[i]) == 0);
    for (int i = 1; i < CLIENTS; i++) CHECK(mqs_start_sem_wait(clients[i], semaphores[i]) == 0);
    for (int i = 1; i < CLIENTS; i++) CHECK(mqs_sem_post(clients[0], semaphores[0]) == 0);
    for (int i = 1; i < CLIENTS; i++) CHECK(mqs_wait(clients[i], NULL) == 0 && mqs_finish(clients[i]) == 0);
    CHECK(mqs_sem_unlink(clients[0], "/many") == 0);
}

static const char *name_of(int number)
{
    static char name[32];
    snprintf(name, sizeof name, "/many-%d", number);
    return name;
}

static int count_name(const char *name, size_t size, void *arg)
{
    *(int *)arg += size > 6 && !memcmp(name, "/many-", 6);
    return 0;
}

static void name_many(struct mqs *c)
{
    uint64_t semaphore;
    int counted = 0, page;
    for (int i = 0; i < NAMES; i++)
        CHECK(mqs_sem_open(c, name_of(i), MQS_CREATE | MQS_EXCLUSIVE, 0600, 0, &semaphore) == 0 && mqs_sem_close(c, semaphore) == 0);
    for (uint32_t start = 0; (page = mqs_list(c, MQS_SEMAPHORES, start, count_name, &counted)) > 0; start += (uint32_t)page) CHECK(page <= PAGE);
    CHECK(page == 0 && counted == NAMES);
    for (int i = 0; i < NAMES; i++) CHECK(mqs_sem_unlink(c, name_of(i)) == 0);
}

/* As many descriptions as a session may have, and one more. */
static void open_too_many(struct mqs *c)
{
    uint64_t semaphore, first = 0;
    int count = 0;
    while (count < NAMES && mqs_sem_open(c, "/many", MQS_CREATE, 0600, 0, &semaphore) == 0)
        if (count++ == 0) first = semaphore;
    CHECK(count >= 1000 && count < NAMES && mqs_rule(c) == 24 && errno == mqs_errno(24));
    CHECK(mqs_sem_close(c, first) == 0 && mqs_sem_open(c, "/many", 0, 0, 0, &semaphore) == 0);
    CHECK(mqs_sem_unlink(c, "/many") == 0);
}

int main(void)
{
    setvbuf(stdout, NULL, _IOLBF, 0);
    connect_all();
    pass_round();
    wait_together();
    name_many(clients[0]);
    open_too_many(clients[1]);
    for (int i = 0; i < CLIENTS; i++) mqs_disconnect(clients[i]);
    printf("many: %d checks, %d failed\n", checks, faults);
    return faults != 0;
}
