# The recovery of record.s: answers the current copy, which is the number of updates and the sum; of no record nothing.
 li a2, 0               # the answer's length
 ld t0, 0(a1)           # the pointer
 beqz t0, done
 add t0, a1, t0
 ld t1, 0(t0)           # the number of updates
 ld t2, 64(t0)          # the sum
 lui a1, 256            # the answer's address, 0x100000 in data memory
 sd t1, 0(a1)
 sd t2, 8(a1)
 li a2, 16
done:
 li a7, 93
 li a0, 0
 ecall
