/* A FIFO queue of linked nodes, as queue.s; with -DRECOVERY its recovery. */
#include "novacrash.h"

typedef unsigned long u64;

enum { NODES = 4 };

/* A node has a cache line of its own; the next one is named by its offset on the medium, 0 where there is none. */
struct node {
    _Alignas(LINE_SIZE) volatile u64 value;
    volatile u64 next;
};

/* Cache line 0 holds the offset of the front: the node that was dequeued last, at first one that never had a value. Nodes
 * are taken in order and once each, so that a fresh one is zeros. The queue holds the nodes behind the front. */
struct queue {
    _Alignas(LINE_SIZE) volatile u64 front;
    struct node nodes[NODES];
};

#ifndef RECOVERY

/* The last node. It isn't persistent: recovery finds it by walking. */
static struct node *last;

static void enqueue(struct queue *queue, u64 value)
{
    struct node *node = last + 1;
    node->value = value;                    /* the new node's value */
    nc_clean(node);                         /* the new node's line */
    nc_fence();                             /* now the new node is durable */
    last->next = (u64)node - (u64)queue;    /* the enqueue commits by this link */
    nc_clean(last);                         /* the line of the node that was last */
    nc_fence();                             /* now the enqueue is durable, and may be acknowledged */
    last = node;
}

static u64 dequeue(struct queue *queue)
{
    struct node *front = (struct node *)((u64)queue + queue->front);
    struct node *next = (struct node *)((u64)queue + front->next);
    queue->front = (u64)next - (u64)queue;  /* the dequeue commits by this store */
    nc_clean(&queue->front);                /* the front's line */
    nc_fence();                             /* now the dequeue is durable, and its value may be used */
    return next->value;
}

/* Enqueues 11, 12 and 13 and dequeues twice, as operations 1 to 5. */
int main(u64 hart, unsigned char *medium)
{
    (void)hart;
    struct queue *queue = (struct queue *)medium;
    last = queue->nodes;
    queue->front = (u64)last - (u64)queue;
    nc_clean(&queue->front);
    nc_fence();
    u64 value = 11;
    for (u64 operation = 1; operation <= 5; operation++) {
        nc_begin(operation);
        if (operation == 3 || operation == 5)
            dequeue(queue);
        else
            enqueue(queue, value++);
        nc_end(operation);
    }
    return 0;
}

#else

/* Answers the values of the nodes behind the front, in order. */
int main(u64 hart, unsigned char *medium)
{
    (void)hart;
    static u64 answer[2 * NODES];    /* room for more than there can be, so that a circle is seen */
    u64 length = 0;
    struct queue *queue = (struct queue *)medium;
    u64 offset = ((struct node *)(medium + queue->front))->next;
    while (offset != 0 && length < 2 * NODES) {
        struct node *node = (struct node *)(medium + offset);
        answer[length++] = node->value;
        offset = node->next;
    }
    nc_answer(answer, 8 * length);
}

#endif
