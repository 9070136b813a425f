# Two operations on a structure. Put your own between the lines of stars; a further one has a number of its own.
# The structure: two slots for a value, in cache lines 1 and 2, and in line 0 the number of the slot that counts.
# a1 is the address of the medium's first byte: byte N stands at a1 + N. A cache line has 64 bytes.
 li a7, 2001            # operation 1 begins
 li a0, 1
 ecall
# ***
 li t0, 42
 sd t0, 128(a1)         # the new value, into slot 1
 addi t1, a1, 128
 cbo.clean (t1)         # its cache line is to be written back (x86: clwb)
 fence w, w             # now the value is durable (x86: sfence)
 li t0, 1
 sd t0, 0(a1)           # slot 1 counts
 cbo.clean (a1)
 fence w, w             # now that is durable, too
# ***
 li a7, 2002            # operation 1 ends: from now on it has to last
 li a0, 1
 ecall
 li a7, 2001            # operation 2 begins
 li a0, 2
 ecall
# ***
 li t0, 43
 sd t0, 64(a1)          # the next value, into slot 0
 addi t1, a1, 64
 cbo.clean (t1)
 fence w, w             # now the next value is durable
 li t0, 0
 sd t0, 0(a1)           # slot 0 counts
 cbo.clean (a1)
 fence w, w
# ***
 li a7, 2002            # operation 2 ends
 li a0, 2
 ecall
 li a7, 93              # the end of the routine
 li a0, 0
 ecall
