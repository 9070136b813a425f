# Each hart stores to a cache line of its own and makes that durable, as operation h + 1 of hart h. The operations have nothing to
# do with each other, so that either one may be durable first.
#
# In persistent memory the word of hart h stands at 64 * h from its base (a1): 0, and then h + 1.
 addi s1, a0, 1         # the operation's number
 slli t1, a0, 6
 add s3, a1, t1         # the hart's cache line
 li a7, 2001            # operation s1 begins
 mv a0, s1
 ecall
 sd s1, 0(s3)           # the operation commits by this store
 cbo.clean (s3)
 fence w, w             # now the word is durable
 li a7, 2002            # operation s1 ends
 ecall
 li a7, 93
 li a0, 0
 ecall
