# A redo log over two balances: the new balances are logged, and then written to their places.
#
# In persistent memory, by cache lines:
#     0    1 where the log counts
#     1    the log, which has the new balances
#     8, 9 the balances
 li s0, 1
again:
 li a7, 2001            # operation s0 begins
 mv a0, s0
 ecall
 ld s1, 512(a1)
 ld s2, 576(a1)
 addi s1, s1, -10
 addi s2, s2, 10
 sd s1, 64(a1)          # what they are to be
 sd s2, 72(a1)
 addi s3, a1, 64
 cbo.clean (s3)
 fence w, w             # the log is durable
 li t0, 1
 sd t0, 0(a1)           # the transfer commits, since the log counts
 cbo.clean (a1)
 fence w, w
 sd s1, 512(a1)         # in their places
 sd s2, 576(a1)
 addi t1, a1, 512
 addi t2, a1, 576
 cbo.clean (t1)
 cbo.clean (t2)
 fence w, w
 sd zero, 0(a1)         # nothing is left to be done
 cbo.clean (a1)
 fence w, w
 li a7, 2002            # operation s0 ends
 ecall
 addi s0, s0, 1
 li t0, 3
 blt s0, t0, again
 li a7, 93
 li a0, 0
 ecall
