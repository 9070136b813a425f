# Two harts take two locks, both in the same order, so that neither waits for ever.
 addi s1, a0, 1
 lui s4, 256            # the locks, in data memory
 li t1, 0
 add s5, s4, t1         # both take lock 0 first
 xori t1, t1, 64
 add s6, s4, t1
 li t0, 1
first:
 amoswap.w t1, t0, (s5)
 bnez t1, first
second:
 amoswap.w t1, t0, (s6)
 bnez t1, second
 li a7, 2001            # operation h + 1 begins
 mv a0, s1
 ecall
 sd s1, 0(a1)
 cbo.clean (a1)
 fence w, w
 li a7, 2002
 ecall
 sw x0, 0(s6)
 sw x0, 0(s5)
 li a7, 93
 li a0, 0
 ecall
