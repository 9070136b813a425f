# queue.s without the clean and the fence of a link that is walked over. Wrong: another hart may have stored that link, and
# not made it durable yet. The node that is enqueued behind it is then durable, its operation ends, and no walk reaches it.
#
# In persistent memory, by bytes from its base (a1), a cache line each:
#     0            the first link: where the first node begins, 0 where there is none
#     64 * (h + 1) the node of hart h: its link, which is where the next node begins, 0 in the last one; and at 8 its value
 addi s1, a0, 1         # the operation's number
 addi t1, a0, 70        # the value
 slli s2, s1, 6         # where the node begins
 add s3, a1, s2         # and its address
 li a7, 2001            # operation s1 begins
 mv a0, s1
 ecall
 sd t1, 8(s3)           # the value, while no link leads to the node
 cbo.clean (s3)
 fence w, w             # now the node is durable
 mv t3, a1              # the address of the first link
walk:
 ld t0, 0(t3)
 beqz t0, last          # nothing stands behind it
 add t3, a1, t0         # the next node begins with the next link
 j walk
last:
 lr.d t0, (t3)
 bnez t0, walk          # another hart has enqueued meanwhile
 sc.d t1, s2, (t3)      # the operation commits by this store
 bnez t1, last          # another hart has stored to the link since the LR: look again
 cbo.clean (t3)
 fence w, w             # now the link is durable
 li a7, 2002            # operation s1 ends
 ecall
 li a7, 93
 li a0, 0
 ecall
