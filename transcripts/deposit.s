# Deposits that wait to be added to a balance, which recovery does.
#
# In persistent memory, by cache lines:
#     0    the balance
#     1    the number of deposits that wait
#     2 on one deposit each
 li s0, 1
again:
 li a7, 2001            # operation s0 begins
 mv a0, s0
 ecall
 ld t0, 64(a1)
 slli t1, t0, 6
 add t1, a1, t1
 addi t1, t1, 128       # the line of the next one
 li t2, 7
 sd t2, 0(t1)
 cbo.clean (t1)
 fence w, w             # it is durable
 addi t0, t0, 1
 sd t0, 64(a1)          # and counts
 addi t2, a1, 64
 cbo.clean (t2)
 fence w, w
 li a7, 2002            # operation s0 ends
 ecall
 addi s0, s0, 1
 li t0, 4
 blt s0, t0, again
 li a7, 93
 li a0, 0
 ecall
