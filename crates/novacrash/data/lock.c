/* Two harts append to one log, each its own entry under a lock: operation 1 of hart 0, operation 2 of hart 1, as lock.plan has
 * them. Operations that share an inode mustn't overlap, so an operation begins and ends while its hart holds the lock. */
#include <stdatomic.h>
#include "novacrash.h"

typedef unsigned long u64;

static atomic_flag taken = ATOMIC_FLAG_INIT;

struct entry {
    volatile u64 kind;
    volatile u64 operation;
    volatile u64 value;
};

static void append(unsigned char *medium, u64 operation, u64 value)
{
    volatile u64 *tail = (volatile u64 *)(medium + LINE_SIZE + 8);
    u64 place = *tail;
    struct entry *entry = (struct entry *)(medium + place);
    entry->kind = 1;
    entry->operation = operation;
    entry->value = value;
    nc_clean(entry);
    nc_fence();
    *tail = place + LINE_SIZE;
    nc_clean(tail);
    nc_fence();
}

int main(u64 hart, unsigned char *medium)
{
    while (atomic_flag_test_and_set_explicit(&taken, memory_order_acquire)) {
    }
    nc_begin(hart + 1);
    append(medium, hart + 1, 70 + hart);
    nc_end(hart + 1);
    atomic_flag_clear_explicit(&taken, memory_order_release);
    return 0;
}
