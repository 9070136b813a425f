# own-lines.s where harts that come together share one fence: the first one makes it, and the others wait for that. Wrong: a fence
# completes the cleans of its own hart alone. So who has waited ends its operation, and its word may still be lost.
#
# In persistent memory the word of hart h stands at 64 * h from its base (a1): 0, and then h + 1.
 addi s1, a0, 1         # the operation's number
 slli t1, a0, 6
 add s3, a1, t1         # the hart's cache line
 lui s4, 256            # in data memory: 1 while a hart is about to make the fence
 li a7, 2001            # operation s1 begins
 mv a0, s1
 ecall
 sd s1, 0(s3)           # the operation commits by this store
 cbo.clean (s3)
 li t0, 1
 amoswap.d t1, t0, (s4)
 bnez t1, follow        # another hart is about to make the fence
 fence w, w             # now the cleans of this hart are complete, and no others
 sd x0, 0(s4)
done:
 li a7, 2002            # operation s1 ends
 ecall
 li a7, 93
 li a0, 0
 ecall
follow:
 ld t0, 0(s4)
 bnez t0, follow        # until that hart has made its fence
 j done
