# A FIFO queue of linked nodes: values are enqueued behind the last node and dequeued from the front.
#
# In persistent memory, by bytes from its base (a1), a cache line each:
#     0            the front: where the node begins that was dequeued last (at first one that never had a value)
#     64 to 319    the nodes: a value, and behind it where the next node begins, 0 where there is none
# Nodes are taken in order and once each, so that a fresh one is zeros. The queue holds the nodes behind the front. Where
# the last node is stands in a register alone: recovery finds it by walking.
#
# Enqueues 11, 12 and 13 and dequeues twice, as operations 1 to 5.
 li t0, 64              # before the first operation: an empty queue
 sd t0, 0(a1)
 cbo.clean (a1)
 fence w, w
 addi s0, a1, 64        # the last node's address
 li s1, 11              # the next value
 li s2, 1               # the next operation's number
 jal enqueue
 jal enqueue
 jal dequeue
 jal enqueue
 jal dequeue
 li a7, 93
 li a0, 0
 ecall
enqueue:
 li a7, 2001            # operation s2 begins
 mv a0, s2
 ecall
 addi t0, s0, 64        # the new node's address
 sub t1, t0, a1         # and where it begins
 sd s1, 0(t0)           # the new node's value
 cbo.clean (t0)         # the new node's line
 fence w, w             # now the new node is durable
 sd t1, 8(s0)           # the enqueue commits by this link
 cbo.clean (s0)         # the line of the node that was last
 fence w, w             # now the enqueue is durable, and may be acknowledged
 mv s0, t0
 addi s1, s1, 1
 j end
dequeue:
 li a7, 2001            # operation s2 begins
 mv a0, s2
 ecall
 ld t0, 0(a1)
 add t0, a1, t0
 ld t1, 8(t0)           # where the node behind the front begins
 sd t1, 0(a1)           # the dequeue commits by this store
 cbo.clean (a1)         # the front's line
 fence w, w             # now the dequeue is durable, and its value may be used
end:
 li a7, 2002            # operation s2 ends
 mv a0, s2
 ecall
 addi s2, s2, 1
 ret
