# Publishing once: harts set one flag, whoever comes first. Operation h + 1 of hart h.
#
# In persistent memory the flag stands at 0 from its base (a1): 1 once it is set.
#
# When an operation ends the flag has to be durable, whichever hart has set it. A hart that finds the flag set can't know
# whether that store is durable yet. So it makes the flag durable itself.
 addi a0, a0, 1
 li a7, 2001            # operation a0 begins
 ecall
 ld t0, 0(a1)
 bnez t0, sure          # another hart has set the flag
 li t0, 1
 sd t0, 0(a1)           # the operation commits by this store
sure:
 cbo.clean (a1)
 fence w, w             # now the flag is durable, whichever hart has set it
 li a7, 2002            # operation a0 ends
 ecall
 li a7, 93
 li a0, 0
 ecall
