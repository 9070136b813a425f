# The recovery of locks.s: frees each lock that is taken, and answers how many locks there are.
 lui s0, 256            # the answer stands at 0x100000, in data memory
 li s1, 0               # how many locks so far
 mv t1, a1
 li t2, 12
lock:
 ld t0, 0(t1)
 beqz t0, next
 sd x0, 0(t1)
next:
 addi s1, s1, 1
 addi t1, t1, 64
 addi t2, t2, -1
 bnez t2, lock
 sd s1, 0(s0)
 mv a1, s0
 li a2, 8
 li a7, 93
 li a0, 0
 ecall
