/* going.h: what the two programs of tests/again share: they read commands, one a line, make the call, and print how it ended. */
#ifndef GOING_H
#define GOING_H

#include <errno.h>
#include <signal.h>
#include <stdio.h>
#include <stdlib.h>
#include <string.h>
#include <time.h>

enum { WORDS = 8, LINE = 4096, OBJECTS = 128, MESSAGE = 64 };

static char *word[WORDS];
static int words;

static int is(const char *name) { return !strcmp(word[0], name); }

static int has(const char *option)
{
    for (int i = 1; i < words; i++)
        if (!strcmp(word[i], option)) return 1;
    return 0;
}

/* Objects have a letter each. */
static int letter(void) { return word[1][0] & (OBJECTS - 1); }

/* The moment in so many milliseconds, or NULL if the word isn't there. */
static const struct timespec *moment(int at)
{
    static struct timespec until;
    if (at >= words) return NULL;
    long ms = atol(word[at]);
    clock_gettime(CLOCK_REALTIME, &until);
    until.tv_sec += ms / 1000;
    until.tv_nsec += ms % 1000 * 1000000;
    until.tv_sec += until.tv_nsec / 1000000000;
    until.tv_nsec %= 1000000000;
    return &until;
}

static int say(long result)
{
    if (result < 0) return printf("%s\n", strerrorname_np(errno));
    return printf("ok\n");
}

static int say_message(long size, const char *data)
{
    return size < 0 ? say(size) : printf("ok %.*s\n", (int)size, data);
}

static int say_number(unsigned long number) { return printf("ok %lu\n", number); }

static void hear(int signal) { (void)signal; }

/* A signal whose handler ends calls that block. */
static void begin_to_hear(void)
{
    struct sigaction action = { .sa_handler = hear };
    sigaction(SIGUSR2, &action, NULL);
}

/* Splits the next line into words. 0: there is none. */
static int read_command(void)
{
    static char line[LINE];
    if (!fgets(line, sizeof line, stdin)) return 0;
    words = 0;
    for (char *next = strtok(line, " \n"); next && words < WORDS; next = strtok(NULL, " \n")) word[words++] = next;
    return words > 0;
}

#endif
