# push.s that cleans its node at the first two tries alone. Wrong: at the third try the node has a new next one, and the head may
# be durable before that is. It takes three harts to lose twice.
#
# In persistent memory, by bytes from its base (a1):
#     0            the head: where the newest node begins, 0 where there is none
#     64 * (h + 1) the node of hart h: its value, and behind it where the next node begins
 addi t0, a0, 1         # the operation's number
 addi t1, a0, 70        # the value
 slli t2, t0, 6         # where the node begins
 add t3, a1, t2         # and its address
 li s5, 2               # at so many tries the node is cleaned
 li a7, 2001            # operation t0 begins
 mv a0, t0
 ecall
 sd t1, 0(t3)           # the value
again:
 ld t4, 0(a1)           # the head
 sd t4, 8(t3)           # comes behind the new node
 beqz s5, tried
 addi s5, s5, -1
 cbo.clean (t3)
 fence w, w             # now the node is durable
tried:
 lr.d t5, (a1)
 bne t5, t4, again      # another hart has pushed meanwhile
 sc.d t6, t2, (a1)      # the push commits by this store
 bnez t6, again
 cbo.clean (a1)
 fence w, w             # now the head is
 li a7, 2002            # operation t0 ends
 ecall
 li a7, 93
 li a0, 0
 ecall
