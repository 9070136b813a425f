# A list to whose front 24 nodes are pushed, each in a cache line of its own. A push makes no back pointer: recovery does.
#
# In persistent memory, by cache lines:
#     0      the offset of the first node
#     1 on   a node each: the offset of the next one, a value, the offset of the one before
 li s0, 1
again:
 li a7, 2001            # operation s0 begins
 mv a0, s0
 ecall
 slli t0, s0, 6
 add t1, a1, t0         # the new node
 ld t2, 0(a1)
 sd t2, 0(t1)           # its next one
 sd s0, 8(t1)           # and its value
 cbo.clean (t1)
 fence w, w             # the node is durable
 sd t0, 0(a1)           # and is the first one
 cbo.clean (a1)
 fence w, w
 li a7, 2002            # operation s0 ends
 ecall
 addi s0, s0, 1
 li t0, 25
 blt s0, t0, again
 li a7, 93
 li a0, 0
 ecall
