/* manual_mq_getattr.c: what the example of mq_getattr(3) shows: the attributes of a queue that is made without any. */
#include "case.h"

int main(void)
{
    struct mq_attr attributes;
    mq_unlink("/manual");
    mqd_t q = mq_open("/manual", O_CREAT | O_EXCL, S_IRUSR | S_IWUSR, NULL);
    if (q == (mqd_t)-1) {
        perror("mq_open");
        return 1;
    }
    if (mq_getattr(q, &attributes) == -1) {
        perror("mq_getattr");
        return 1;
    }
    printf("messages at most: %ld\n", attributes.mq_maxmsg);
    printf("bytes of a message at most: %ld\n", attributes.mq_msgsize);
    if (mq_unlink("/manual") == -1) perror("mq_unlink");
    return 0;
}
