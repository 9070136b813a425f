/* A hash table of 16 buckets in the manner of P-CLHT, as table.s; with -DRECOVERY its recovery. */
#include "novacrash.h"

typedef unsigned long u64;

enum { BUCKETS = 16, SLOTS = 3 };

/* A bucket has a cache line of its own. A slot is free while its key is 0. The lock means nothing after a power cut, and nobody
 * cleans it. */
struct bucket {
    _Alignas(LINE_SIZE) volatile u64 lock;
    volatile u64 keys[SLOTS];
    volatile u64 values[SLOTS];
};

static void take(struct bucket *bucket)
{
    while (__atomic_exchange_n(&bucket->lock, 1, __ATOMIC_ACQUIRE) != 0)
        ;
}

#ifndef RECOVERY

/* Of a line an older store is on the medium whenever a newer one is: so the value is there before the key. */
static void put(struct bucket *buckets, u64 key, u64 value)
{
    struct bucket *bucket = &buckets[key % BUCKETS];
    take(bucket);
    u64 slot = 0;
    while (bucket->keys[slot] != 0)
        slot++;
    bucket->values[slot] = value;    /* the slot's value */
    bucket->keys[slot] = key;        /* the put commits by this store of its key */
    nc_clean(bucket);                /* the bucket's line */
    nc_fence();                      /* now the put is durable, and may be acknowledged */
    bucket->lock = 0;                /* the lock is free; this store is never cleaned */
}

/* Operation n puts the value 100 + n under the key n, for n from 1 to 20. */
int main(u64 hart, unsigned char *medium)
{
    (void)hart;
    for (u64 operation = 1; operation <= 20; operation++) {
        nc_begin(operation);
        put((struct bucket *)medium, operation, 100 + operation);
        nc_end(operation);
    }
    return 0;
}

#else

/* Frees all locks, and answers the key and the value of each slot that is taken, bucket by bucket. It holds a bucket's lock while
 * it looks at it, as any reader may. */
int main(u64 hart, unsigned char *medium)
{
    (void)hart;
    struct bucket *buckets = (struct bucket *)medium;
    for (u64 bucket = 0; bucket < BUCKETS; bucket++) {
        buckets[bucket].lock = 0;    /* no lock outlives a restart */
    }
    static u64 answer[2 * BUCKETS * SLOTS];
    u64 length = 0;
    for (struct bucket *bucket = buckets; bucket < buckets + BUCKETS; bucket++) {
        take(bucket);
        for (u64 slot = 0; slot < SLOTS; slot++) {
            u64 key = bucket->keys[slot];
            if (key == 0)
                continue;
            answer[length++] = key;
            answer[length++] = bucket->values[slot];
        }
        bucket->lock = 0;
    }
    nc_answer(answer, 8 * length);
}

#endif
