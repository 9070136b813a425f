# Hart h appends the value 70 + h to inode h, as operation h + 1. Wrong: it takes another hart's fence for its own.
 lui s4, 256            # the number of fences made, in data memory
 addi s1, a0, 1
 li a7, 2001            # operation h + 1 begins
 mv a0, s1
 ecall
 slli t4, s1, 6         # the inode's cache line
 add t4, t4, a1
 ld t0, 8(t4)           # its tail
 add t1, a1, t0
 li t2, 1
 sd t2, 0(t1)           # kind 1, without a name
 sd s1, 8(t1)           # operation h + 1
 addi t3, s1, 69
 sd t3, 16(t1)          # the value 70 + h
 ld s2, 0(s4)
 cbo.clean (t1)
 ld s3, 0(s4)
 bne s2, s3, made       # was a fence made meanwhile?
 fence w, w
 amoadd.d x0, t2, (s4)
made:
 addi t0, t0, 64
 sd t0, 8(t4)           # the append commits by this store
 cbo.clean (t4)
 fence w, w
 li a7, 2002            # operation h + 1 ends
 ecall
 li a7, 93
 li a0, 0
 ecall
