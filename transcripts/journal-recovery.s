# The page journal's recovery: where the journal is in force it puts the page's old lines back and discards the journal. It
# answers the whole page.
 lui t0, 1
 add s2, a1, t0         # the page
 add s3, s2, t0         # the journal, where the page ends
 ld t0, 0(a1)           # the mark
 beqz t0, show
 mv t0, s2
 mv t1, s3
 li t3, 64              # how many lines are put back
restore:
 ld t2, 0(t1)
 sd t2, 0(t0)           # a word's old value
 addi t0, t0, 8
 addi t1, t1, 8
 andi t2, t0, 63
 bnez t2, restore
 addi t2, t0, -64
 cbo.clean (t2)
 addi t3, t3, -1
 bnez t3, restore
 fence w, w             # what was put back is durable before the journal is discarded
 sd x0, 0(a1)
 cbo.clean (a1)
 fence w, w
show:
 lui t1, 256            # the answer's address, 0x100000 in data memory
 lui a2, 1              # and its length
word:
 ld t2, 0(s2)
 sd t2, 0(t1)
 addi s2, s2, 8
 addi t1, t1, 8
 bne s2, s3, word
 lui a1, 256
 li a7, 93
 li a0, 0
 ecall
