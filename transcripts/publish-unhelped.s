# publish.s where a hart that finds the flag set ends at once. Wrong: the hart that has set it may not have made it durable yet.
# A power cut then takes the flag back, though an operation has ended.
#
# In persistent memory the flag stands at 0 from its base (a1): 1 once it is set.
 addi a0, a0, 1
 li a7, 2001            # operation a0 begins
 ecall
 ld t0, 0(a1)
 bnez t0, done          # another hart has set the flag
 li t0, 1
 sd t0, 0(a1)           # the operation commits by this store
 cbo.clean (a1)
 fence w, w             # now the flag is durable
done:
 li a7, 2002            # operation a0 ends
 ecall
 li a7, 93
 li a0, 0
 ecall
