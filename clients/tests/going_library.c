/* going_library.c: the program of tests/again over libmqserve. */
#include "../c/mqserve_jobs.h"
#include "going.h"

static struct mqs *c, *other;
static uint64_t object[OBJECTS];

static int open_flags(void)
{
    return (has("create") ? MQS_CREATE : 0) | (has("new") ? MQS_CREATE | MQS_EXCLUSIVE : 0) | (has("nonblock") ? MQS_NONBLOCK : 0);
}

static int one_of_messages(void)
{
    char data[MESSAGE];
    if (is("send")) return say(mqs_mq_send(c, object[letter()], word[2], strlen(word[2]), 0, moment(3)));
    if (is("receive")) return say_message(mqs_mq_receive(c, object[letter()], data, sizeof data, NULL, moment(2)), data);
    if (is("start-send")) return say(mqs_start_send(c, object[letter()], word[2], strlen(word[2]), 0));
    if (is("start-receive")) return say(mqs_start_receive(c, object[letter()], sizeof data));
    if (is("start-wait")) return say(mqs_start_sem_wait(c, object[letter()]));
    if (is("await")) return say(mqs_wait(c, moment(1)));
    if (is("finish")) return say(mqs_finish(c));
    if (is("finish-receive")) return say_message(mqs_finish_receive(c, data, sizeof data, NULL), data);
    return 0;
}

static int one_of_queues(void)
{
    struct mqs_state state;
    struct mqs_attributes given = { 2, MESSAGE };
    if (is("queue"))
        return say(mqs_mq_open(c, word[2], has("read") ? MQS_READ : MQS_BOTH, open_flags(), 0666, &given, &object[letter()]));
    if (is("count")) return mqs_mq_getattr(c, object[letter()], &state) < 0 ? say(-1) : say_number(state.messages_now);
    if (is("nonblock")) return say(mqs_mq_setattr(c, object[letter()], 1, NULL));
    if (is("notify")) return say(mqs_mq_notify(c, object[letter()], 1));
    if (is("unnotify")) return say(mqs_mq_notify(c, object[letter()], 0));
    if (is("close")) return say(mqs_mq_close(c, object[letter()]));
    if (is("unlink")) return say(mqs_mq_unlink(c, word[1]));
    if (is("give")) return say(mqs_mq_give(c, object[letter()], mqs_session(other)));
    return 0;
}

static int one_of_semaphores(void)
{
    uint32_t value;
    if (is("semaphore")) return say(mqs_sem_open(c, word[2], open_flags(), 0600, 0, &object[letter()]));
    if (is("post")) return say(mqs_sem_post(c, object[letter()]));
    if (is("wait")) return say(mqs_sem_wait(c, object[letter()], moment(2)));
    if (is("try")) return say(mqs_sem_trywait(c, object[letter()]));
    if (is("value")) return mqs_sem_getvalue(c, object[letter()], &value) < 0 ? say(-1) : say_number(value);
    if (is("close-semaphore")) return say(mqs_sem_close(c, object[letter()]));
    if (is("unlink-semaphore")) return say(mqs_sem_unlink(c, word[1]));
    return 0;
}

static int count_name(const char *name, size_t size, void *count)
{
    (void)name;
    *(unsigned long *)count += size > 0;
    return 0;
}

static int one_of_names(void)
{
    struct mqs_facts facts;
    unsigned long count = 0;
    if (is("chmod")) return say(mqs_chmod(c, MQS_QUEUES, word[1], (unsigned)strtoul(word[2], NULL, 8)));
    if (is("chown")) return say(mqs_chown(c, MQS_QUEUES, word[1], -1, -1));
    if (is("mode")) return mqs_stat(c, MQS_QUEUES, word[1], &facts) < 0 ? say(-1) : say_number(facts.mode);
    if (is("list")) return mqs_list(c, MQS_QUEUES, 0, count_name, &count) < 0 ? say(-1) : say_number(count > 0);
    if (is("mask")) return say(mqs_umask(c, (unsigned)strtoul(word[1], NULL, 8)));
    if (is("limit")) return say(mqs_set_limit(c, 1000, 819200));
    return 0;
}

/* Another session gives this one a queue. */
static int take_queue(void)
{
    int what = 0;
    uint64_t theirs;
    other = mqs_connect(getenv("DIRECT"), getenv("MQSERVE_KEY"), 5000);
    if (!other || mqs_mq_open(other, word[2], MQS_BOTH, 0, 0, NULL, &theirs) < 0) return say(-1);
    if (mqs_mq_give(other, theirs, mqs_session(c)) < 0) return say(-1);
    int r;
    while ((r = mqs_next_unasked(c, &what, &object[letter()])) == 0) {}
    return r < 0 ? say(-1) : say_number((unsigned long)what);
}

static int use_pool(void)
{
    struct mqs_jobs *pool = mqs_jobs_open(c, word[1], 8, 100);
    mqs_jobs_close(pool);
    return say(pool ? 0 : -1);
}

static int one_of_the_rest(void)
{
    int what = 0;
    uint64_t description = 0;
    if (is("repeated")) return say_number(mqs_receives_repeated(c));
    if (is("lost")) return say_number(mqs_lost(c) != 0);
    if (is("socket")) return say_number((unsigned long)mqs_fd(c));
    if (is("going")) return say(mqs_set_reconnect(c, atof(word[1])));
    if (is("rule")) return say_number((unsigned long)mqs_rule(c));
    if (is("take")) return take_queue();
    if (is("pool")) return use_pool();
    if (!is("notice")) return 0;
    int r = mqs_next_unasked(c, &what, &description);
    if (r == 1 && what == MQS_NOTICE && description != object[letter()]) return printf("another's\n");
    return r < 0 ? say(-1) : say_number((unsigned long)what);
}

int main(void)
{
    setvbuf(stdout, NULL, _IOLBF, 0);
    begin_to_hear();
    c = mqs_connect(getenv("MQSERVE"), getenv("MQSERVE_KEY"), 5000);
    if (!c || mqs_set_reconnect(c, atof(getenv("MQSERVE_RECONNECT"))) < 0) return 1;
    printf("ready\n");
    while (read_command())
        if (!one_of_messages() && !one_of_queues() && !one_of_semaphores() && !one_of_names() && !one_of_the_rest()) printf("what?\n");
    mqs_disconnect(other);
    mqs_disconnect(c);
    return 0;
}
