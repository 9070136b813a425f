# The recovery of transfer.s: puts back the balances that its log has, empties the log, and answers both balances.
 ld t0, 0(a1)           # how many entries there are to undo
 beqz t0, done
 addi t1, a1, 64
undo:
 ld t2, 0(t1)           # where
 ld t3, 8(t1)           # and what was there
 add t2, a1, t2
 sd t3, 0(t2)
 cbo.clean (t2)
 addi t1, t1, 64
 addi t0, t0, -1
 bnez t0, undo
 fence w, w             # the old balances are durable
 sd zero, 0(a1)         # the log is empty
 cbo.clean (a1)
 fence w, w
done:
 ld t0, 512(a1)
 ld t1, 576(a1)
 lui a1, 256            # the answer begins at 0x100000
 sd t0, 0(a1)
 sd t1, 8(a1)
 li a2, 16
 li a7, 93
 li a0, 0
 ecall
