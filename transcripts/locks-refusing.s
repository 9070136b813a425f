# A recovery of locks.s that loads all locks, and exits with 3 where the sixth one is taken.
 mv t1, a1
 li t2, 12
lock:
 ld t0, 0(t1)
 addi t1, t1, 64
 addi t2, t2, -1
 bnez t2, lock
 li a7, 93
 li a0, 3
 ld t0, 320(a1)
 bnez t0, taken
 li a0, 0
taken:
 li a2, 0
 ecall
