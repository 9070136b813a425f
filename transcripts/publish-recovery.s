# The recovery of publish.s: answers the flag.
 lui s0, 256            # the answer stands at 0x100000, in data memory
 ld t0, 0(a1)
 sd t0, 0(s0)
 mv a1, s0
 li a2, 8
 li a7, 93
 li a0, 0
 ecall
