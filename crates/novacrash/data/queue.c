/* The queue of queue.s in C: each hart enqueues one node behind the last one, without a lock. Hart h enqueues the value 70 + h, as
 * operation h + 1. With -DRECOVERY it is the recovery. With -DUNHELPED it is wrong, as queue-unhelped.s. */
#include "novacrash.h"

typedef unsigned long u64;

enum { NODES = 8 };

/* A node has a cache line of its own. Its link is the offset of the next node on the medium, 0 in the last one. */
struct node {
    _Alignas(LINE_SIZE) volatile u64 next;
    volatile u64 value;
};

/* Cache line 0 holds the first link; the lines behind it are the nodes of hart 0, hart 1, .. */
struct queue {
    _Alignas(LINE_SIZE) volatile u64 first;
    struct node nodes[NODES];
};

#ifndef RECOVERY

static void enqueue(struct queue *queue, struct node *node, u64 value)
{
    u64 offset = (u64)node - (u64)queue;
    volatile u64 *link = &queue->first;
    u64 found = 0;
    node->value = value;
    nc_clean(node);
    nc_fence(); /* now the node is durable, before a link leads to it */
    while (!__atomic_compare_exchange_n(link, &found, offset, 0, __ATOMIC_ACQ_REL, __ATOMIC_ACQUIRE)) {
#ifndef UNHELPED
        nc_clean(link);
        nc_fence(); /* now the link that is walked over is durable, whichever hart has stored it */
#endif
        link = &((struct node *)((u64)queue + found))->next;
        found = 0;
    }
    nc_clean(link);
    nc_fence(); /* now the link to the new node is durable */
}

int main(u64 hart, unsigned char *medium)
{
    struct queue *queue = (struct queue *)medium;
    nc_begin(hart + 1);
    enqueue(queue, &queue->nodes[hart], 70 + hart);
    nc_end(hart + 1);
    return 0;
}

#else

/* Answers the values of the nodes, the first one first. */
int main(u64 hart, unsigned char *medium)
{
    (void)hart;
    static u64 answer[2 * NODES]; /* room for more than there can be, so that a circle is seen */
    u64 length = 0;
    u64 offset = ((struct queue *)medium)->first;
    while (offset != 0 && length < 2 * NODES) {
        struct node *node = (struct node *)(medium + offset);
        answer[length++] = node->value;
        offset = node->next;
    }
    nc_answer(answer, 8 * length);
}

#endif
