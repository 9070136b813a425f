# The undo log's recovery: puts the old values back that are in force, the newest first, discards the log, and answers the
# two accounts. It exits with code 1 where they don't hold 200 together.
 ld t0, 0(a1)           # the count
undo:
 beqz t0, undone
 addi t0, t0, -1
 slli t1, t0, 4
 add t1, a1, t1
 ld t2, 64(t1)          # where the entry's account begins
 add t2, a1, t2
 ld t3, 72(t1)          # and its old value
 sd t3, 0(t2)
 cbo.clean (t2)
 j undo
undone:
 fence w, w             # what was put back is durable before the log is discarded
 sd x0, 0(a1)
 cbo.clean (a1)
 fence w, w
 ld t0, 128(a1)
 ld t1, 192(a1)
 add t2, t0, t1
 addi t2, t2, -200
 snez a0, t2            # 1 where money was lost or made
 lui a1, 256            # the answer's address, 0x100000 in data memory
 sd t0, 0(a1)
 sd t1, 8(a1)
 li a2, 16
 li a7, 93
 ecall
