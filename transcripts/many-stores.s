# Stores 65,540 times the zero that is there already, and then begins operation 9.
 li t0, 65540
 li t1, 32704
 add t1, t1, a1
again:
 sd x0, 0(t1)
 addi t0, t0, -1
 bnez t0, again
 li a7, 2001
 li a0, 9
 ecall
