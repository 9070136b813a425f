# A ring that keeps the newest three of the values that were appended to it.
#
# In persistent memory, by bytes from its base (a1), a cache line each:
#     0            the commit word: how many values were ever appended
#     64 to 319    four slots: the entry's number, from 1, and behind it the value
# Entry n stands in slot (n - 1) mod 4, and counts once the commit word is n. Three entries count, so that one slot is
# always free, and a new entry overwrites none that counts.
#
# Appends seven values, so that the ring wraps round: value 100 + n as operation n.
 li s0, 1               # the operation's number
 li s1, 8               # and the first that isn't made
append:
 li a7, 2001            # operation s0 begins
 mv a0, s0
 ecall
 ld t0, 0(a1)           # the commit word
 andi t1, t0, 3         # the free slot's number
 slli t1, t1, 6
 add t1, a1, t1
 addi t1, t1, 64        # and its address
 addi t0, t0, 1
 sd t0, 0(t1)           # the entry's number
 addi t2, s0, 100
 sd t2, 8(t1)           # and its value
 cbo.clean (t1)         # the entry's line
 fence w, w             # now the entry is durable
 sd t0, 0(a1)           # the append commits by this store
 cbo.clean (a1)         # the commit word's line
 fence w, w             # now the append is durable, and may be acknowledged
 li a7, 2002            # operation s0 ends
 ecall
 addi s0, s0, 1
 bne s0, s1, append
 li a7, 93
 li a0, 0
 ecall
