# As page-unfenced.s, but slot 7 is filled with 1, 2 and 3 in turn, and slot 9 with 1 three times.
 li a7, 2001            # operation 1 begins
 li a0, 1
 ecall
 li t0, 20              # how many slots are left
 addi t1, a1, 64        # the next slot
fill:
 sd a0, 0(t1)           # slots 1 to 20, in cache lines 1 to 20
 addi t1, t1, 64
 addi t0, t0, -1
 bnez t0, fill
 li t0, 2
 sd t0, 448(a1)         # slot 7 again
 li t0, 3
 sd t0, 448(a1)         # and again
 sd a0, 576(a1)         # slot 9 again, as it was
 sd a0, 576(a1)
 sd a0, 0(a1)           # the commit word, in cache line 0
 cbo.clean (a1)
 fence w, w             # now the commit word is durable, and no slot is
 li a7, 2002            # operation 1 ends
 ecall
 li a7, 93
 li a0, 0
 ecall
