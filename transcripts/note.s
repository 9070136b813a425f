# One cell under a redo log: the new note is logged, and then written to its place.
#
# In persistent memory, by cache lines:
#     0    1 where the log is to be carried out
#     1    the log: the new note
#     2    the note
 li s0, 1
again:
 li a7, 2001            # operation s0 begins
 mv a0, s0
 ecall
 addi t1, s0, 100
 sd t1, 64(a1)          # the new note
 addi t2, a1, 64
 cbo.clean (t2)
 fence w, w
 li t0, 1
 sd t0, 0(a1)           # it is to be carried out
 cbo.clean (a1)
 fence w, w
 sd t1, 128(a1)         # written
 addi t2, a1, 128
 cbo.clean (t2)
 fence w, w
 sd zero, 0(a1)         # the log is empty
 cbo.clean (a1)
 fence w, w
 li a7, 2002            # operation s0 ends
 ecall
 addi s0, s0, 1
 li t0, 3
 blt s0, t0, again
 li a7, 93
 li a0, 0
 ecall
