# The recovery of own-lines.s: answers the first words of the cache lines 0 to 3.
 lui s0, 256            # the answer begins at 0x100000, in data memory
 mv s1, s0              # and ends here so far
 li t1, 4               # so many words are left
next:
 ld t0, 0(a1)
 sd t0, 0(s1)
 addi a1, a1, 64
 addi s1, s1, 8
 addi t1, t1, -1
 bnez t1, next
 mv a1, s0
 li a2, 32
 li a7, 93
 li a0, 0
 ecall
