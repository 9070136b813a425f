# The recovery of two-steps.s: answers both words of the cache lines 0 and 1.
 lui s0, 256            # the answer begins at 0x100000, in data memory
 ld t0, 0(a1)
 sd t0, 0(s0)
 ld t0, 8(a1)
 sd t0, 8(s0)
 ld t0, 64(a1)
 sd t0, 16(s0)
 ld t0, 72(a1)
 sd t0, 24(s0)
 mv a1, s0
 li a2, 32
 li a7, 93
 li a0, 0
 ecall
