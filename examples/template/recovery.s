# What a restart finds. It leaves its answer at 0x100000: what your users would see, and nothing else.
# States that they can tell apart need different answers. Put your own between the lines of stars.
 lui s0, 256            # s0 = 0x100000
 li s1, 0               # the length of the answer in bytes
# ***
 ld t0, 0(a1)           # the number of the slot that counts
 addi t1, a1, 64        # slot 0
 beq t0, x0, found      # also bne, and by size blt, bge, or without a sign bltu, bgeu
 addi t1, a1, 128       # slot 1
found:
 ld t2, 0(t1)
 sd t2, 0(s0)           # the answer is the value
 li s1, 8
# ***
 mv a1, s0              # where the answer is,
 mv a2, s1              # and how long
 li a7, 93
 li a0, 0
 ecall
