# A page journal: a page of 64 cache lines that is changed in place, and whose old lines recovery puts back as wholes.
#
# In persistent memory, by bytes from its base (a1):
#     0            the mark: 1 while the journal is in force
#     4096         the page, of 64 cache lines
#     8192         the journal: a copy of each of the page's lines, as it was before
# An operation has four steps, each durable before the next begins: the page is copied to the journal, the mark puts the journal
# in force, the page changes, and the mark's zero discards the journal, by which the operation commits.
#
# Operation n, for n from 1 to 2, writes into each word of the page 4096 n and the word's place.
 lui t0, 1
 add s2, a1, t0         # the page
 add s3, s2, t0         # the journal, where the page ends
 li s0, 1               # the operation's number
 li s1, 3               # and the first that isn't made
write:
 li a7, 2001            # operation s0 begins
 mv a0, s0
 ecall
 mv t0, s2
 mv t1, s3
copy:
 ld t2, 0(t0)
 sd t2, 0(t1)           # a word's old value
 addi t0, t0, 8
 addi t1, t1, 8
 andi t2, t1, 63
 bnez t2, copy
 addi t2, t1, -64       # the copy's line
 cbo.clean (t2)
 bne t0, s3, copy
 fence w, w             # now the copy of the page is durable
 li t2, 1
 sd t2, 0(a1)           # the journal is in force
 cbo.clean (a1)         # the mark's line
 fence w, w             # now the mark is durable, and the page may change
 mv t0, s2
 slli t1, s0, 12
change:
 sub t2, t0, s2
 add t2, t2, t1
 sd t2, 0(t0)           # a word's new value
 addi t0, t0, 8
 andi t2, t0, 63
 bnez t2, change
 addi t2, t0, -64       # the page's line
 cbo.clean (t2)
 bne t0, s3, change
 fence w, w             # now the page is durable
 sd x0, 0(a1)           # the operation commits by this store
 cbo.clean (a1)         # the mark's line, with its zero
 fence w, w             # now the operation is durable, and may be acknowledged
 li a7, 2002            # operation s0 ends
 ecall
 addi s0, s0, 1
 bne s0, s1, write
 li a7, 93
 li a0, 0
 ecall
