# queue.s with a shortcut where the SC fails: another hart has then stored the link, so the walk goes on behind its node.
# Wrong: the first time the link is made durable, as it should be, and from the second time on it isn't. With two harts an
# SC fails once at most, since each hart stores one link: it takes three harts to see the fault.
#
# In persistent memory, by bytes from its base (a1), a cache line each:
#     0            the first link: where the first node begins, 0 where there is none
#     64 * (h + 1) the node of hart h: its link, which is where the next node begins, 0 in the last one; and at 8 its value
 addi s1, a0, 1         # the operation's number
 addi t1, a0, 70        # the value
 slli s2, s1, 6         # where the node begins
 add s3, a1, s2         # and its address
 li a7, 2001            # operation s1 begins
 mv a0, s1
 ecall
 sd t1, 8(s3)           # the value, while no link leads to the node
 cbo.clean (s3)
 fence w, w             # now the node is durable
 mv t3, a1              # the address of the first link
walk:
 ld t0, 0(t3)
 beqz t0, last          # nothing stands behind it
 cbo.clean (t3)
 fence w, w             # now the link that is walked over is durable
 add t3, a1, t0         # the next node begins with the next link
 j walk
last:
 lr.d t0, (t3)
 bnez t0, walk          # another hart has enqueued meanwhile
 sc.d t1, s2, (t3)      # the operation commits by this store
 bnez t1, lost          # another hart has stored to the link since the LR
 cbo.clean (t3)
 fence w, w             # now the link is durable
 li a7, 2002            # operation s1 ends
 ecall
 li a7, 93
 li a0, 0
 ecall
lost:
 ld t0, 0(t3)           # the link of the hart that was faster
 bnez s6, onward        # it isn't the first time
 li s6, 1
 cbo.clean (t3)
 fence w, w             # now that link is durable
onward:
 add t3, a1, t0         # on behind its node
 j walk
