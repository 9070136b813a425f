# Each hart moves one unit from the first word of its cache line to the second one, as operation h + 1 of hart h. Wrong: it does so
# in two durable steps, and between them the unit is lost.
#
# In persistent memory the words of hart h stand at 64 * h from its base (a1), and 8 behind that.
 addi s1, a0, 1         # the operation's number
 slli t1, a0, 6
 add s3, a1, t1         # the hart's cache line
 li a7, 2001            # operation s1 begins
 mv a0, s1
 ecall
 ld t0, 0(s3)
 addi t0, t0, -1
 sd t0, 0(s3)           # the unit is taken away
 cbo.clean (s3)
 fence w, w             # and that is durable
 ld t0, 8(s3)
 addi t0, t0, 1
 sd t0, 8(s3)           # the unit is added
 cbo.clean (s3)
 fence w, w             # and that is durable too
 li a7, 2002            # operation s1 ends
 ecall
 li a7, 93
 li a0, 0
 ecall
