/* A ring that keeps the newest three of the values that were appended to it, as ring.s; with -DRECOVERY its recovery. */
#include "novacrash.h"

typedef unsigned long u64;

enum { SLOTS = 4 };

/* How many entries count at most: one slot is always free, so that a new entry overwrites none that counts. */
enum { KEPT = 3 };

/* Cache line 0 holds the commit word, and each slot has a line of its own. Entry n stands in slot (n - 1) mod 4, and
 * counts once the commit word is n. */
struct ring {
    _Alignas(LINE_SIZE) volatile u64 committed;
    struct slot {
        _Alignas(LINE_SIZE) volatile u64 number;
        volatile u64 value;
    } slots[SLOTS];
};

#ifndef RECOVERY

static void append(struct ring *ring, u64 value)
{
    u64 committed = ring->committed;
    struct slot *slot = &ring->slots[committed % SLOTS];
    slot->number = committed + 1;
    slot->value = value;
    nc_clean(slot);                     /* the entry's line */
    nc_fence();                         /* now the entry is durable */
    ring->committed = committed + 1;    /* the append commits by this store */
    nc_clean(&ring->committed);         /* the commit word's line */
    nc_fence();                         /* now the append is durable, and may be acknowledged */
}

/* Appends seven values, so that the ring wraps round. */
int main(u64 hart, unsigned char *medium)
{
    (void)hart;
    for (u64 operation = 1; operation <= 7; operation++) {
        nc_begin(operation);
        append((struct ring *)medium, 100 + operation);
        nc_end(operation);
    }
    return 0;
}

#else

/* Answers the entries that count, the oldest first, each as its number and its value. */
int main(u64 hart, unsigned char *medium)
{
    (void)hart;
    static u64 answer[2 * SLOTS];
    u64 length = 0;
    struct ring *ring = (struct ring *)medium;
    u64 committed = ring->committed;
    u64 count = committed < KEPT ? committed : KEPT;
    for (u64 number = committed - count; number < committed; number++) {
        struct slot *slot = &ring->slots[number % SLOTS];
        answer[length++] = slot->number;
        answer[length++] = slot->value;
    }
    nc_answer(answer, 8 * length);
}

#endif
