# An undo log over two balances: each of two transfers moves 10 from the first to the second, as a whole or not at all.
#
# In persistent memory, by cache lines:
#     0    how many entries of the log are to be undone
#     1, 2 the entries: where a balance stands, and what it was
#     8, 9 the balances
 li s0, 1               # the first transfer
again:
 li a7, 2001            # operation s0 begins
 mv a0, s0
 ecall
 ld s1, 512(a1)         # the balances
 ld s2, 576(a1)
 addi s3, a1, 64
 li t0, 512
 sd t0, 0(s3)           # entry 1: the first balance as it is
 sd s1, 8(s3)
 addi s4, a1, 128
 li t0, 576
 sd t0, 0(s4)           # entry 2: the second
 sd s2, 8(s4)
 cbo.clean (s3)
 cbo.clean (s4)
 fence w, w             # the entries are durable
 li t0, 2
 sd t0, 0(a1)           # and count from here on
 cbo.clean (a1)
 fence w, w             # also durably
 addi s1, s1, -10
 addi s2, s2, 10
 sd s1, 512(a1)         # the transfer itself
 sd s2, 576(a1)
 addi t1, a1, 512
 addi t2, a1, 576
 cbo.clean (t1)
 cbo.clean (t2)
 fence w, w             # it is durable
 sd zero, 0(a1)         # the transfer commits: nothing is left to be undone
 cbo.clean (a1)
 fence w, w
 li a7, 2002            # operation s0 ends
 ecall
 addi s0, s0, 1
 li t0, 3
 blt s0, t0, again
 li a7, 93
 li a0, 0
 ecall
