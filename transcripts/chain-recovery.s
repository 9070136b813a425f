# The recovery of chain.s: makes all back pointers, under one fence, and answers the values.
 ld t0, 0(a1)           # the first node
 li t1, 0               # the node before it
 lui t2, 256            # the answer begins at 0x100000
walk:
 beqz t0, done
 add t3, a1, t0
 sd t1, 16(t3)          # the back pointer
 cbo.clean (t3)
 ld t4, 8(t3)
 sd t4, 0(t2)
 addi t2, t2, 8
 mv t1, t0
 ld t0, 0(t3)
 j walk
done:
 fence w, w
 lui a1, 256
 sub a2, t2, a1
 li a7, 93
 li a0, 0
 ecall
