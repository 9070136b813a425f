# A recovery of two-slots.s that tidies up: it copies the record to slot 0, lets that count, and answers the record.
 ld t0, 0(a1)
 beqz t0, done          # the record is in slot 0
 ld t1, 320(a1)
 ld t2, 384(a1)
 ld t3, 448(a1)
 sd t1, 64(a1)
 sd t2, 128(a1)
 sd t3, 192(a1)
 addi t4, a1, 64
 cbo.clean (t4)
 addi t4, a1, 128
 cbo.clean (t4)
 addi t4, a1, 192
 cbo.clean (t4)
 fence w, w             # the copy is durable
 sd zero, 0(a1)         # slot 0 counts
 cbo.clean (a1)
 fence w, w
done:
 lui t5, 256            # the answer begins at 0x100000
 ld t0, 64(a1)
 ld t1, 128(a1)
 ld t2, 192(a1)
 sd t0, 0(t5)
 sd t1, 8(t5)
 sd t2, 16(t5)
 mv a1, t5
 li a2, 24
 li a7, 93
 li a0, 0
 ecall
