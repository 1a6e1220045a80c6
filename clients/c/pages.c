/* pages.c: pages of names and of the trail. A page is checked whole before the first entry is handed on. */
#include "connection.h"

#include <errno.h>

struct page { const uint8_t *at; size_t left, count; };

static struct page page_of(const struct answer *a)
{
    return (struct page){ a->fields + 2, a->size - 2, (size_t)mqsi_get(a->fields, 2) };
}

/* The next entry: `fixed` bytes and a text. 0 where the page ends within it. */
static int next_entry(struct page *p, size_t fixed, const uint8_t **numbers, const char **text, size_t *size)
{
    if (p->left < fixed + 2) return 0;
    *numbers = p->at;
    *size = (size_t)mqsi_get(p->at + fixed, 2);
    if (*size > NAME_MAX_ALL || p->left - fixed - 2 < *size) return 0;
    *text = (const char *)p->at + fixed + 2;
    p->at += fixed + 2 + *size;
    p->left -= fixed + 2 + *size;
    return 1;
}

static int is_whole(struct page p, size_t fixed)
{
    const uint8_t *numbers;
    const char *text;
    size_t size;
    if (p.count > PAGE) return 0;
    for (size_t i = 0; i < p.count; i++)
        if (!next_entry(&p, fixed, &numbers, &text, &size)) return 0;
    return p.left == 0;
}

int mqs_list(struct mqs *c, int family, uint32_t start, int (*each)(const char *name, size_t size, void *arg), void *arg)
{
    struct request r = mqsi_request(LIST_NAMES);
    struct answer a;
    const uint8_t *none;
    const char *name;
    size_t size;
    c->rule = 0;
    if (family != MQS_QUEUES && family != MQS_SEMAPHORES) return mqsi_fail(EINVAL);
    mqsi_put(&r, (uint64_t)family, 1);
    mqsi_put(&r, start, 4);
    mqsi_put(&r, PAGE, 2);
    if (mqsi_ask(c, &r, &a, NAMES) < 0) return -1;
    struct page p = page_of(&a);
    if (!is_whole(p, 0)) return mqsi_lose(c, EPROTO);
    int count = (int)p.count;
    for (int i = 0; i < count && next_entry(&p, 0, &none, &name, &size); i++)
        if (each(name, size, arg)) break;
    return count;
}

enum { RECORD_NUMBERS = 19 };

int mqs_audit(struct mqs *c, uint64_t start, int (*each)(const struct mqs_record *record, void *arg), void *arg)
{
    struct request r = mqsi_request(AUDIT);
    struct answer a;
    const uint8_t *numbers;
    struct mqs_record record;
    mqsi_put(&r, start, 8);
    mqsi_put(&r, PAGE, 2);
    if (mqsi_ask(c, &r, &a, RECORDS) < 0) return -1;
    struct page p = page_of(&a);
    if (!is_whole(p, RECORD_NUMBERS)) return mqsi_lose(c, EPROTO);
    int count = (int)p.count;
    for (int i = 0; i < count && next_entry(&p, RECORD_NUMBERS, &numbers, &record.name, &record.name_size); i++) {
        record.place = mqsi_get(numbers, 8);
        record.session = mqsi_get(numbers + 8, 8);
        record.call = numbers[16];
        record.rule = (int)mqsi_get(numbers + 17, 2);
        if (each(&record, arg)) break;
    }
    return count;
}
