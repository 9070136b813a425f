# Hart h appends the value 70 + h to inode h, as operation h + 1, and then waits for ever. Wrong: the entry is never cleaned.
 li a7, 2001            # operation h + 1 begins
 addi a0, a0, 1
 ecall
 slli t4, a0, 6         # the inode's cache line
 add t4, t4, a1
 ld t0, 8(t4)           # its tail
 add t1, a1, t0
 li t2, 1
 sd t2, 0(t1)           # kind 1, without a name
 sd a0, 8(t1)           # operation h + 1
 addi t3, a0, 69
 sd t3, 16(t1)          # the value 70 + h
 addi t0, t0, 64
 sd t0, 8(t4)           # the append commits by this store
 cbo.clean (t4)
 fence w, w
 li a7, 2002            # operation h + 1 ends
 ecall
wait:
 ld t5, 0(a1)          # for what never comes
 beqz x0, wait
