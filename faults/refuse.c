/* A library to preload: it refuses growths of memory, or disturbs reads or writes, and lets all others be. A read is a call of
 * read or recv, and a write one of write or send.
 *
 * DISTURB_WHAT  allocation (refused), read-fails, read-short, read-interrupted, write-fails, write-short or write-interrupted;
 *               or kept or bytes: nothing is disturbed
 * DISTURB_AT    which one, counted from 1 over the whole process
 * DISTURB_TIMES how many, with that one; without it, one
 * DISTURB_TOLD  a file descriptor that gets a byte, '!', once that one was met, and another, '?', where a file is read again of
 *               which a read failed; of kept, a line with how many allocations there are, each time that there are more than ever
 *               before; of bytes, a line with how many bytes are allocated, at each write that ends a line
 * DISTURB_PIECE the most bytes of a read or a write; without it there is no such bound
 *
 * It counts every call of the C library's allocator, whoever makes it, and never one that only frees.
 */

#include <errno.h>
#include <malloc.h>
#include <stdatomic.h>
#include <stddef.h>
#include <stdint.h>
#include <stdio.h>
#include <stdlib.h>
#include <string.h>
#include <sys/socket.h>
#include <sys/syscall.h>
#include <sys/types.h>
#include <unistd.h>

extern void *__libc_malloc(size_t);
extern void *__libc_calloc(size_t, size_t);
extern void *__libc_realloc(void *, size_t);
extern void *__libc_memalign(size_t, size_t);
extern void __libc_free(void *);

enum call { ALLOCATION, READ, WRITE, KEPT, BYTES, NONE };
enum way { FAILS, SHORT, INTERRUPTED };

static enum call disturbed_call = NONE;
static enum way disturbed_way;
static int told;
/* The file of which a read failed, as long as it is open. */
static atomic_int failed_file = -1;
static long times = 1;
static atomic_long left, kept, most_kept, bytes_kept;
static size_t piece = SIZE_MAX;

static const struct {
    const char *name;
    enum call call;
    enum way way;
} WAYS[] = {
    {"allocation", ALLOCATION, FAILS},
    {"read-fails", READ, FAILS},
    {"read-short", READ, SHORT},
    {"read-interrupted", READ, INTERRUPTED},
    {"write-fails", WRITE, FAILS},
    {"write-short", WRITE, SHORT},
    {"write-interrupted", WRITE, INTERRUPTED},
    {"kept", KEPT, FAILS},
    {"bytes", BYTES, FAILS},
};

__attribute__((constructor)) static void begin(void)
{
    const char *what = getenv("DISTURB_WHAT"), *at = getenv("DISTURB_AT"), *to = getenv("DISTURB_TOLD");
    const char *most = getenv("DISTURB_PIECE"), *many = getenv("DISTURB_TIMES");
    if (!what || !at || !to)
        return;
    if (most)
        piece = strtoul(most, NULL, 10);
    if (many)
        times = atol(many);
    told = atoi(to);
    left = atol(at);
    for (size_t i = 0; i < sizeof WAYS / sizeof *WAYS; i++)
        if (!strcmp(what, WAYS[i].name)) {
            disturbed_way = WAYS[i].way;
            disturbed_call = WAYS[i].call;
        }
}

/* Whether this call is one to disturb. */
static int is_met(enum call call)
{
    if (call != disturbed_call)
        return 0;
    long before = atomic_fetch_sub(&left, 1);
    if (before > 1 || before <= 1 - times)
        return 0;
    if (before == 1)
        syscall(SYS_write, told, "!", 1);
    return 1;
}

static void tell(long number)
{
    char text[24];
    int length = snprintf(text, sizeof text, "%ld\n", number);
    syscall(SYS_write, told, text, length);
}

/* Counts an allocation that was made, if it was; tells how many there are, where it is more than ever before. */
static void *counted(void *made)
{
    if (made && disturbed_call == BYTES)
        atomic_fetch_add(&bytes_kept, malloc_usable_size(made));
    if (!made || disturbed_call != KEPT)
        return made;
    long now = atomic_fetch_add(&kept, 1) + 1, most = atomic_load(&most_kept);
    while (now > most && !atomic_compare_exchange_weak(&most_kept, &most, now))
        ;
    if (now > most)
        tell(now);
    return made;
}

static int is_refused(void)
{
    if (!is_met(ALLOCATION))
        return 0;
    errno = ENOMEM;
    return 1;
}

void *malloc(size_t size)
{
    return is_refused() ? NULL : counted(__libc_malloc(size));
}

void *calloc(size_t count, size_t size)
{
    return is_refused() ? NULL : counted(__libc_calloc(count, size));
}

void free(void *old)
{
    if (old && disturbed_call == KEPT)
        atomic_fetch_sub(&kept, 1);
    if (old && disturbed_call == BYTES)
        atomic_fetch_sub(&bytes_kept, malloc_usable_size(old));
    __libc_free(old);
}

void *realloc(void *old, size_t size)
{
    if (!old)
        return malloc(size);
    if (!size) {
        free(old);
        return NULL;
    }
    if (is_refused())
        return NULL;
    long before = disturbed_call == BYTES ? malloc_usable_size(old) : 0;
    void *made = __libc_realloc(old, size);
    if (made && disturbed_call == BYTES)
        atomic_fetch_add(&bytes_kept, (long)malloc_usable_size(made) - before);
    return made;
}

void *memalign(size_t alignment, size_t size)
{
    return is_refused() ? NULL : counted(__libc_memalign(alignment, size));
}

void *aligned_alloc(size_t alignment, size_t size)
{
    return memalign(alignment, size);
}

int posix_memalign(void **made, size_t alignment, size_t size)
{
    void *found = memalign(alignment, size);
    if (found)
        *made = found;
    return found ? 0 : ENOMEM;
}

/* How many of so many bytes a call may transfer; -1 where it fails, with errno. */
static ssize_t room(enum call call, int file, size_t count)
{
    if (count > piece)
        count = piece;
    if (call == READ && file == atomic_load(&failed_file))
        syscall(SYS_write, told, "?", 1);
    if (!is_met(call))
        return count;
    if (disturbed_way == SHORT)
        return count ? 1 : 0;
    if (call == READ && disturbed_way == FAILS)
        atomic_store(&failed_file, file);
    errno = disturbed_way == FAILS ? EIO : EINTR;
    return -1;
}

/* Another file may get the number of one that is closed. */
int close(int file)
{
    int same = file;
    atomic_compare_exchange_strong(&failed_file, &same, -1);
    return syscall(SYS_close, file);
}

ssize_t read(int file, void *bytes, size_t count)
{
    ssize_t most = room(READ, file, count);
    return most < 0 ? -1 : syscall(SYS_read, file, bytes, most);
}

ssize_t write(int file, const void *bytes, size_t count)
{
    ssize_t most = room(WRITE, file, count);
    if (disturbed_call == BYTES && count && ((const char *)bytes)[count - 1] == '\n')
        tell(atomic_load(&bytes_kept));
    return most < 0 ? -1 : syscall(SYS_write, file, bytes, most);
}

ssize_t recv(int socket, void *bytes, size_t count, int flags)
{
    ssize_t most = room(READ, socket, count);
    return most < 0 ? -1 : recvfrom(socket, bytes, most, flags, NULL, NULL);
}

ssize_t send(int socket, const void *bytes, size_t count, int flags)
{
    ssize_t most = room(WRITE, socket, count);
    return most < 0 ? -1 : sendto(socket, bytes, most, flags, NULL, 0);
}
