/* jumps.c: longjmp and its like, which a handler may call to leave a call that blocks. The call is withdrawn before: a message that it took
 * once nobody waits for it would be lost. A jump within a handler ends the call too, by EINTR. */
#include "preload.h"

#include <dlfcn.h>

/* <setjmp.h> may give these other names, and takes arrays of a type that is the C library's own. */
PUBLIC _Noreturn void longjmp(void *to, int value);
PUBLIC _Noreturn void _longjmp(void *to, int value);
PUBLIC _Noreturn void siglongjmp(void *to, int value);
PUBLIC _Noreturn void __longjmp_chk(void *to, int value);
static void (*real)(void *to, int value), (*real_checked)(void *to, int value);

__attribute__((constructor)) static void find(void)
{
    *(void **)&real = dlsym(RTLD_NEXT, "siglongjmp");
    *(void **)&real_checked = dlsym(RTLD_NEXT, "__longjmp_chk");
    if (!real_checked) real_checked = real;
}

/* Where the system can't tell a bad buffer, the handler of SIGSEGV runs amid a call that has the lock. */
static void let_all_go(struct entry *e)
{
    if (e->has_home) release_home(e);
    if (e->has_lock) unlock_state(e);
}

static void leave_calls(void)
{
    int cancel = -1, old;
    for (struct entry *e = innermost(); e; e = e->outer) {
        let_all_go(e);
        if (!e->is_left) abandon(e);
        cancel = e->cancel;
    }
    if (cancel < 0) return;
    set_innermost(NULL);
    pthread_setcancelstate(cancel, &old);
}

/* Another library's constructor may jump before this one's has run. */
static _Noreturn void jump(int is_checked, void *to, int value)
{
    if (!real) find();
    leave_calls();
    (is_checked ? real_checked : real)(to, value);
    __builtin_unreachable();
}

void siglongjmp(void *to, int value) { jump(0, to, value); }
void longjmp(void *to, int value) { jump(0, to, value); }
void _longjmp(void *to, int value) { jump(0, to, value); }
void __longjmp_chk(void *to, int value) { jump(1, to, value); }
