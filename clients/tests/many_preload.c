/* many_preload.c: the preload library with names that are too long, with 5,000 names, with more that is open than may be, and with 500
 * processes. */
#include "cases/case.h"

enum { CHILDREN = 500, NAMES = 5000 };

static int checks, faults;

#define CHECK(condition) do { \
        checks++; \
        if (!(condition)) { \
            faults++; \
            printf("line %d: not so: %s (errno %s)\n", __LINE__, #condition, strerrorname_np(errno)); \
        } \
    } while (0)

static const char *name_of(int number)
{
    static char name[32];
    snprintf(name, sizeof name, "/many-%d", number);
    return name;
}

static void long_names(void)
{
    static const size_t sizes[] = { 300, 65535, 65536, 200000 };
    static char name[200001];
    for (size_t i = 0; i < sizeof sizes / sizeof *sizes; i++) {
        memset(name, 'n', sizes[i]);
        name[0] = '/';
        name[sizes[i]] = 0;
        CHECK(mq_open(name, O_RDWR | O_CREAT, 0600, NULL) == (mqd_t)-1 && errno == ENAMETOOLONG);
        CHECK(sem_open(name, O_CREAT, 0600, 0) == SEM_FAILED && errno == ENAMETOOLONG);
        CHECK(mq_unlink(name) == -1 && errno == ENAMETOOLONG);
        CHECK(sem_unlink(name) == -1 && errno == ENAMETOOLONG);
    }
}

static void one_after_another(void)
{
    long opened = 0, closed = 0, unlinked = 0;
    for (int i = 0; i < NAMES; i++) {
        sem_t *s = sem_open(name_of(i), O_CREAT | O_EXCL, 0600, 1);
        opened += s != SEM_FAILED;
        closed += s != SEM_FAILED && sem_close(s) == 0;
    }
    for (int i = 0; i < NAMES; i++) unlinked += sem_unlink(name_of(i)) == 0;
    CHECK(opened == NAMES);
    CHECK(closed == NAMES);
    CHECK(unlinked == NAMES);
}

/* More than may be open: an error, and all that is open serves on. */
static void too_many(void)
{
    static sem_t *opened[NAMES];
    int count = 0, error = 0, served = 0;
    while (count < NAMES && !error) {
        opened[count] = sem_open(name_of(count), O_CREAT, 0600, 1);
        if (opened[count] == SEM_FAILED) error = errno;
        else count++;
    }
    CHECK(error == EMFILE && count >= 1000);
    for (int i = 0; i < count; i++) served += sem_trywait(opened[i]) == 0 && sem_unlink(name_of(i)) == 0 && sem_close(opened[i]) == 0;
    CHECK(served == count);
    sem_t *s = new_semaphore("/many", 1);
    CHECK(sem_trywait(s) == 0 && sem_close(s) == 0 && sem_unlink("/many") == 0);
}

static void send_from(mqd_t q, int number)
{
    _exit(mq_send(q, (char *)&number, sizeof number, 0) != 0);
}

static void children(void)
{
    static char seen[CHILDREN];
    int number, failed = 0, twice = 0, missing = 0;
    mqd_t q = new_queue("/many", 2, sizeof number);
    for (int i = 0; i < CHILDREN; i++) {
        pid_t child = fork();
        if (child == 0) send_from(q, i);
        failed += child < 0;
    }
    for (int i = 0; i < CHILDREN; i++) {
        struct timespec until = in_ms(20000);
        if (mq_timedreceive(q, (char *)&number, sizeof number, NULL, &until) != sizeof number || number < 0 || number >= CHILDREN) failed++;
        else twice += seen[number]++;
    }
    for (int i = 0; i < CHILDREN; i++) {
        missing += !seen[i];
        failed += end_of_child() != 0;
    }
    CHECK(failed == 0);
    CHECK(twice == 0);
    CHECK(missing == 0);
    CHECK(mq_close(q) == 0 && mq_unlink("/many") == 0);
}

int main(void)
{
    long_names();
    one_after_another();
    too_many();
    children();
    printf("many_preload: %d checks, %d failed\n", checks, faults);
    return faults != 0;
}
