/* forking.c: two threads fork again and again, one with a signal blocked. Each comes back with its own mask each time, and so does each
 * child: one fork's state isn't the other's. */
#include "cases/case.h"

enum { TIMES = 300 };

struct forker { int is_blocked, wrong, wrong_in_child; };

static int has_blocked(void)
{
    sigset_t mask;
    pthread_sigmask(SIG_SETMASK, NULL, &mask);
    return sigismember(&mask, SIGUSR1);
}

static void *fork_often(void *arg)
{
    struct forker *f = arg;
    sigset_t mask;
    int status;
    sigemptyset(&mask);
    sigaddset(&mask, SIGUSR1);
    pthread_sigmask(f->is_blocked ? SIG_BLOCK : SIG_UNBLOCK, &mask, NULL);
    for (int i = 0; i < TIMES; i++) {
        pid_t child = fork();
        if (child == 0) _exit(has_blocked());
        f->wrong += has_blocked() != f->is_blocked;
        pthread_sigmask(f->is_blocked ? SIG_BLOCK : SIG_UNBLOCK, &mask, NULL);
        waitpid(child, &status, 0);
        f->wrong_in_child += WEXITSTATUS(status) != f->is_blocked;
    }
    return NULL;
}

int main(void)
{
    struct forker first = { .is_blocked = 1 }, second = { .is_blocked = 0 };
    pthread_t threads[2];
    pthread_create(&threads[0], NULL, fork_often, &first);
    pthread_create(&threads[1], NULL, fork_often, &second);
    for (int i = 0; i < 2; i++) pthread_join(threads[i], NULL);
    printf("wrong: %d and %d, in children %d and %d\n", first.wrong, second.wrong, first.wrong_in_child, second.wrong_in_child);
    return 0;
}
