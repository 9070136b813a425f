# A queue without a lock: each hart enqueues one node behind the last one, by LR and SC. Hart h enqueues the value 70 + h, as
# operation h + 1.
#
# In persistent memory, by bytes from its base (a1), a cache line each:
#     0            the first link: where the first node begins, 0 where there is none
#     64 * (h + 1) the node of hart h: its link, which is where the next node begins, 0 in the last one; and at 8 its value
# A hart walks from link to link up to the last one, and stores there where its own node begins.
#
# Three things have to be durable when the operation ends, each before the next one is stored:
#     the node: else a link may be on the medium that leads to zeros
#     the links that it has walked over: the hart that stored one may not have made it durable yet, and the nodes behind it
#     would be lost with it
#     the link that it has stored
 addi s1, a0, 1         # the operation's number
 addi t1, a0, 70        # the value
 slli s2, s1, 6         # where the node begins
 add s3, a1, s2         # and its address
 li a7, 2001            # operation s1 begins
 mv a0, s1
 ecall
 sd t1, 8(s3)           # the value, while no link leads to the node
 cbo.clean (s3)
 fence w, w             # now the node is durable
 mv t3, a1              # the address of the first link
walk:
 ld t0, 0(t3)
 beqz t0, last          # nothing stands behind it
 cbo.clean (t3)
 fence w, w             # now the link that is walked over is durable
 add t3, a1, t0         # the next node begins with the next link
 j walk
last:
 lr.d t0, (t3)
 bnez t0, walk          # another hart has enqueued meanwhile
 sc.d t1, s2, (t3)      # the operation commits by this store
 bnez t1, last          # another hart has stored to the link since the LR: look again
 cbo.clean (t3)
 fence w, w             # now the link is durable
 li a7, 2002            # operation s1 ends
 ecall
 li a7, 93
 li a0, 0
 ecall
