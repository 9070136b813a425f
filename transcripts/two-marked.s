 bnez a0, second
 li a7, 2001            # operation 1 begins
 li a0, 1
 ecall
 sd a0, 0(a1)           # a store that is never cleaned
 li a7, 2002            # operation 1 ends
 ecall
 li a7, 93
 li a0, 0
 ecall
second:
 li a7, 2001            # operation 2 begins
 li a0, 2
 ecall
 sd a0, 64(a1)
 addi t0, a1, 64
 cbo.clean (t0)
 fence w, w
 li a7, 2002            # operation 2 ends
 ecall
 li a7, 93
 li a0, 0
 ecall
