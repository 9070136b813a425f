# One operation takes and frees the lock of each of twelve cache lines four times, and cleans none of them.
 li a7, 2001
 li a0, 1
 ecall
 li t0, 1
 mv t1, a1              # the lock
 li t2, 12              # how many are left
lock:
 li t3, 4
take:
 sd t0, 0(t1)           # takes it
 sd x0, 0(t1)           # and frees it
 addi t3, t3, -1
 bnez t3, take
 addi t1, t1, 64
 addi t2, t2, -1
 bnez t2, lock
 li a7, 2002
 li a0, 1
 ecall
 li a7, 93
 li a0, 0
 ecall
