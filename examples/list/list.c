/* A linked list that two harts push to under a lock, as list.s; with -DRECOVERY its recovery. */
#include "novacrash.h"

typedef unsigned long u64;

enum { NODES = 4 };

/* A node has a cache line of its own; the next one is named by its offset on the medium, 0 where there is none. */
struct node {
    _Alignas(LINE_SIZE) volatile u64 value;
    volatile u64 next;
};

/* Cache line 0 holds the offset of the newest node, and the lines behind it are the nodes of operations 1 to 4. */
struct list {
    _Alignas(LINE_SIZE) volatile u64 head;
    struct node nodes[NODES];
};

#ifndef RECOVERY

/* The lock stands in data memory: it needs no recovery, since a power cut loses it. */
static unsigned lock;

static void push(struct list *list, struct node *node, u64 value)
{
    u64 next = list->head;
    node->value = value;
    node->next = next;                          /* and the next node */
    nc_clean(node);                             /* the new node's line */
    nc_fence();                                 /* now the new node is durable */
    list->head = (u64)node - (u64)list;         /* the push commits by this store */
    nc_clean(&list->head);                      /* the head's line */
    nc_fence();                                 /* now the push is durable, and may be acknowledged */
}

/* Each hart pushes two nodes. An operation begins and ends while its hart holds the lock. */
int main(u64 hart, unsigned char *medium)
{
    struct list *list = (struct list *)medium;
    for (u64 operation = 2 * hart + 1; operation <= 2 * hart + 2; operation++) {
        while (__atomic_exchange_n(&lock, 1, __ATOMIC_ACQUIRE)) {
        }
        nc_begin(operation);
        push(list, &list->nodes[operation - 1], 70 + operation);
        nc_end(operation);
        __atomic_store_n(&lock, 0, __ATOMIC_RELEASE);
    }
    return 0;
}

#else

/* Answers the values, the newest first. */
int main(u64 hart, unsigned char *medium)
{
    (void)hart;
    static u64 answer[2 * NODES];    /* room for more than there can be, so that a circle is seen */
    u64 length = 0;
    u64 offset = ((struct list *)medium)->head;
    while (offset != 0 && length < 2 * NODES) {
        struct node *node = (struct node *)(medium + offset);
        answer[length++] = node->value;
        offset = node->next;
    }
    nc_answer(answer, 8 * length);
}

#endif
