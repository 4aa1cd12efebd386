#define _DEFAULT_SOURCE
#include "lend.h"

#include <stdio.h>
#include <stdlib.h>
#include <string.h>
#include <sys/mman.h>
#include <unistd.h>

/* Words that no study would write: one kind before it runs, another around the lists. */
static u64 paint(size_t i)
{
    return 0xa5c3000000000000u + i;
}

static u64 guard(size_t i)
{
    return 0x5e1f000000000000u ^ i;
}

static size_t map_bytes(void)
{
    size_t page = (size_t)sysconf(_SC_PAGESIZE), need = (ROOM + 2 * GUARD) * sizeof(u64);
    return (need + page - 1) / page * page;
}

void lend_open(struct lent_list *l)
{
    size_t bytes = map_bytes();
    char *base = mmap(NULL, 2 * bytes, PROT_READ | PROT_WRITE, MAP_PRIVATE | MAP_ANONYMOUS, -1, 0);
    if (base == MAP_FAILED || mprotect(base + bytes, bytes, PROT_NONE) != 0) {
        perror("host: memory for the lists");
        exit(2);
    }
    l->base = (u64 *)base;
}

void lend(struct lent_list *l, const u64 *from, size_t len, bool tight)
{
    l->len = len;
    l->after = tight ? 0 : GUARD;
    l->at = l->base + map_bytes() / sizeof(u64) - l->after - len;
    for (size_t i = 1; i <= GUARD; i++)
        *(l->at - i) = guard(i);
    for (size_t i = 0; i < l->after; i++)
        l->at[len + i] = guard(i);
    for (size_t i = 0; i < len; i++)
        l->at[i] = from ? from[i] : paint(i);
}

void lend_shut(struct lent_list *l, size_t len)
{
    l->len = len;
    l->after = 0;
    l->at = l->base + map_bytes() / sizeof(u64);
}

bool guards_hold(const struct lent_list *l)
{
    for (size_t i = 1; i <= GUARD; i++)
        if (*(l->at - i) != guard(i))
            return false;
    for (size_t i = 0; i < l->after; i++)
        if (l->at[l->len + i] != guard(i))
            return false;
    return true;
}

bool holds(const struct lent_list *l, const u64 *expected)
{
    return memcmp(l->at, expected, l->len * sizeof(u64)) == 0;
}

bool holds_paint(const struct lent_list *l)
{
    for (size_t i = 0; i < l->len; i++)
        if (l->at[i] != paint(i))
            return false;
    return true;
}
