# A record of three cache lines in two slots. An update fills the slot that doesn't count, and then lets it count.
#
# In persistent memory, by cache lines:
#     0        the number of the slot that counts, 0 or 1
#     1 to 3   slot 0
#     5 to 7   slot 1
 li s0, 1
again:
 li a7, 2001            # operation s0 begins
 mv a0, s0
 ecall
 ld t0, 0(a1)
 xori t0, t0, 1         # the other slot
 slli t1, t0, 8
 add t1, a1, t1
 addi t1, t1, 64
 sd s0, 0(t1)           # the new record has s0 in each line
 sd s0, 64(t1)
 sd s0, 128(t1)
 addi t2, t1, 64
 addi t3, t1, 128
 cbo.clean (t1)
 cbo.clean (t2)
 cbo.clean (t3)
 fence w, w             # the record is durable
 sd t0, 0(a1)           # from here on it counts
 cbo.clean (a1)
 fence w, w
 li a7, 2002            # operation s0 ends
 ecall
 addi s0, s0, 1
 li t0, 4
 blt s0, t0, again
 li a7, 93
 li a0, 0
 ecall
