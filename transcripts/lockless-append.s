# Harts append to the log of inode 0 without a lock: operation h + 1 of hart h appends the value 70 + h.
 lui s4, 256            # the lock's place, in data memory
 addi s1, a0, 1         # the operation's number
 li a7, 2001            # operation h + 1 begins
 mv a0, s1
 ecall
 ld t0, 72(a1)          # the tail of inode 0
 add t1, a1, t0
 li t2, 1
 sd t2, 0(t1)           # kind 1, without a name
 sd s1, 8(t1)
 addi t3, s1, 69
 sd t3, 16(t1)
 cbo.clean (t1)
 fence w, w
 addi t0, t0, 64
 sd t0, 72(a1)          # the append commits by this store
 addi t4, a1, 64
 cbo.clean (t4)
 fence w, w
 li a7, 2002            # operation h + 1 ends
 ecall
 li a7, 93
 li a0, 0
 ecall
