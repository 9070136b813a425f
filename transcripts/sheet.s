# Two updates of a sheet of 16 cache lines under an undo log of whole lines: its count in line 0, the log in 1 to 16, then the sheet.
 li s0, 1
again:
 li a7, 2001
 mv a0, s0
 ecall
 li t0, 16
 addi t1, a1, 64        # the log
 lui t2, 0             # the sheet
 addi t2, t2, 1088
 add t2, a1, t2
save:
 ld t3, 0(t2)
 sd t3, 0(t1)
 ld t3, 8(t2)
 sd t3, 8(t1)
 ld t3, 16(t2)
 sd t3, 16(t1)
 ld t3, 24(t2)
 sd t3, 24(t1)
 ld t3, 32(t2)
 sd t3, 32(t1)
 ld t3, 40(t2)
 sd t3, 40(t1)
 ld t3, 48(t2)
 sd t3, 48(t1)
 ld t3, 56(t2)
 sd t3, 56(t1)
 cbo.clean (t1)
 addi t1, t1, 64
 addi t2, t2, 64
 addi t0, t0, -1
 bnez t0, save
 fence w, w
 li t0, 16
 sd t0, 0(a1)
 cbo.clean (a1)
 fence w, w
 li t5, -1024
 add t2, t2, t5
write:
 addi t4, s0, 0
 sd t4, 0(t2)
 addi t4, s0, 1
 sd t4, 8(t2)
 addi t4, s0, 2
 sd t4, 16(t2)
 addi t4, s0, 3
 sd t4, 24(t2)
 addi t4, s0, 4
 sd t4, 32(t2)
 addi t4, s0, 5
 sd t4, 40(t2)
 addi t4, s0, 6
 sd t4, 48(t2)
 addi t4, s0, 7
 sd t4, 56(t2)
 cbo.clean (t2)
 addi t2, t2, 64
 addi t0, t0, -1
 bnez t0, write
 fence w, w
 sd zero, 0(a1)
 cbo.clean (a1)
 fence w, w
 li a7, 2002
 ecall
 addi s0, s0, 1
 li t0, 3
 blt s0, t0, again
 li a7, 93
 li a0, 0
 ecall
