/* settings.c: reads the environment, and ends what must end with the process. */
#include "preload.h"

#include <errno.h>
#include <fcntl.h>
#include <limits.h>
#include <stdio.h>
#include <stdlib.h>
#include <string.h>
#include <unistd.h>

enum { KEY_ROOM = 65536, LONGEST_S = 1000000000, EXIT_NS = 100000000 };   /* EXIT_NS: for a server that stands still; names then stay, as after a kill */

struct settings settings = { .sides = 16, .spares = 1, .hello_ms = 5000, .answer_ms = 10000, .shared_clock = -1, .poll = -1 };

/* One line on standard error, where MQSERVE_DEBUG is set. */
void say(const char *what, const char *why)
{
    int error = errno;
    if (settings.debug) dprintf(STDERR_FILENO, "mqserve-preload: %s: %s\n", what, why);
    errno = error;
}

static void read_number(const char *variable, int least, int most, int *number)
{
    const char *text = secure_getenv(variable);
    if (!text) return;
    char *end;
    long value = strtol(text, &end, 10);
    if (end == text || *end || value < least || value > most) say(variable, "not a number in its range; ignored");
    else *number = (int)value;
}

static void read_seconds(const char *variable, int64_t *nanoseconds)
{
    const char *text = secure_getenv(variable);
    if (!text || !*text) return;
    char *end;
    double seconds = strtod(text, &end);
    if (*end || !(seconds >= 0 && seconds <= LONGEST_S)) say(variable, "not a number in its range; ignored");
    else *nanoseconds = (int64_t)(seconds * 1e9);
}

/* The first line of a file, which lasts until the process ends. */
static char *first_line(const char *path)
{
    char *line = malloc(KEY_ROOM);
    int fd = open(path, O_RDONLY | O_CLOEXEC);
    ssize_t size = line && fd >= 0 ? read(fd, line, KEY_ROOM - 1) : -1;
    if (fd >= 0) close(fd);
    if (size < 0) {
        free(line);
        return NULL;
    }
    line[size] = 0;
    line[strcspn(line, "\r\n")] = 0;
    return line;
}

/* At a socket of the user's own none is wanted. */
static const char *find_key(const char *address)
{
    if (!strncmp(address, "unix-user:", 10)) return "";
    const char *text = secure_getenv("MQSERVE_KEY"), *path = secure_getenv("MQSERVE_KEY_FILE");
    if (text) return strdup(text);
    if (!path) {
        say("MQSERVE_KEY", "not set, nor MQSERVE_KEY_FILE; opens will fail");
        return NULL;
    }
    char *line = first_line(path);
    if (!line) say(path, "can't be read; opens will fail");
    return line;
}

static void begin(void)
{
    const char *address = secure_getenv("MQSERVE");
    if (!address || !*address) return;
    settings.debug = secure_getenv("MQSERVE_DEBUG") != NULL;
    read_number("MQSERVE_SIDES", 1, SIDES_MAX - 1, &settings.sides);
    read_number("MQSERVE_SPARES", 0, settings.sides, &settings.spares);
    read_number("MQSERVE_KEEP_NAMES", 0, 1, &settings.keep_names);
    read_number("MQSERVE_SHARED_CLOCK", 0, 1, &settings.shared_clock);
    read_number("MQSERVE_POLL", 0, 1, &settings.poll);
    read_number("MQSERVE_TIMEOUT_MS", 1, INT_MAX, &settings.hello_ms);
    read_number("MQSERVE_ANSWER_MS", 1, INT_MAX, &settings.answer_ms);
    read_seconds("MQSERVE_RECONNECT", &settings.reconnect);
    settings.key = find_key(address);
    owner = getpid();
    renew_lock();
    if (watch_forks() == 0) settings.address = strdup(address);
    if (!settings.address) say("start", "no memory; the system's own calls stay");
}

int is_served(void)
{
    static pthread_once_t once = PTHREAD_ONCE_INIT;
    pthread_once(&once, begin);
    return settings.address != NULL;
}

/* By now at the latest, so that the first call may be made by the handler of a signal. */
__attribute__((constructor)) static void begin_early(void)
{
    libc();
    is_served();
}

__attribute__((destructor)) static void end(void)
{
    struct entry e;
    if (!settings.address || owner != getpid() || !keeps_names()) return;
    if (enter_within(&e, mqsi_now() + EXIT_NS) < 0) return;
    end_all_kept();
    leave(&e);
}
