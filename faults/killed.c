/* A library to preload: it kills its program as it is to make a call that changes a folder or a file, or has such a change put on the disk.
 *
 * KILLED_AT  which one, counted from 1; without it all are made
 */
#define _GNU_SOURCE
#include <dlfcn.h>
#include <fcntl.h>
#include <signal.h>
#include <stdarg.h>
#include <stdatomic.h>
#include <stdlib.h>
#include <sys/file.h>
#include <unistd.h>

static atomic_long made;
static long at;

__attribute__((constructor)) static void begin(void)
{
    const char *given = getenv("KILLED_AT");
    at = given ? atol(given) : 0;
}

static void meet(void)
{
    if (at && atomic_fetch_add(&made, 1) + 1 == at)
        kill(getpid(), SIGKILL);
}

/* A call of the C library, after it is met. */
#define MET(result, name, parameters, arguments)                                                                                                  \
    result name parameters                                                                                                                        \
    {                                                                                                                                             \
        static result(*own) parameters;                                                                                                           \
        if (!own)                                                                                                                                 \
            *(void **)&own = dlsym(RTLD_NEXT, #name);                                                                                             \
        meet();                                                                                                                                   \
        return own arguments;                                                                                                                     \
    }

MET(int, rename, (const char *from, const char *to), (from, to))
MET(int, link, (const char *from, const char *to), (from, to))
MET(int, unlink, (const char *path), (path))
MET(int, fsync, (int fd), (fd))
MET(int, fdatasync, (int fd), (fd))
MET(int, ftruncate, (int fd, off_t length), (fd, length))
MET(int, ftruncate64, (int fd, off64_t length), (fd, length))
MET(int, flock, (int fd, int how), (fd, how))

/* Writes into files alone. Standard streams and sockets have their own tests. */
ssize_t write(int fd, const void *bytes, size_t size)
{
    static ssize_t (*own)(int, const void *, size_t);
    if (!own)
        *(void **)&own = dlsym(RTLD_NEXT, "write");
    if (fd > STDERR_FILENO)
        meet();
    return own(fd, bytes, size);
}

#define OPENS(name, parameters, arguments, given)                                                                                                 \
    int name parameters                                                                                                                           \
    {                                                                                                                                             \
        static int(*own) given;                                                                                                                   \
        int mode = 0;                                                                                                                             \
        if (!own)                                                                                                                                 \
            *(void **)&own = dlsym(RTLD_NEXT, #name);                                                                                             \
        if (flags & O_CREAT) {                                                                                                                    \
            va_list more;                                                                                                                         \
            va_start(more, flags);                                                                                                                \
            mode = va_arg(more, int);                                                                                                             \
            va_end(more);                                                                                                                         \
            meet();                                                                                                                               \
        }                                                                                                                                         \
        return own arguments;                                                                                                                     \
    }

OPENS(open, (const char *path, int flags, ...), (path, flags, mode), (const char *, int, ...))
OPENS(open64, (const char *path, int flags, ...), (path, flags, mode), (const char *, int, ...))
OPENS(openat, (int folder, const char *path, int flags, ...), (folder, path, flags, mode), (int, const char *, int, ...))
OPENS(openat64, (int folder, const char *path, int flags, ...), (folder, path, flags, mode), (int, const char *, int, ...))
