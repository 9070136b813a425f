# hash.s without the clean and the fence of an entry that is probed past. Wrong: another hart may have stored that entry, and not
# made it durable yet. After a power cut its slot is free again, and a search that ends there doesn't find the entry behind it,
# whose insert has ended.
#
# In persistent memory slot i stands at 64 * i from its base (a1), a cache line each. An entry is one doubleword,
# 256 * key + value, and 0 where the slot is free.
 addi s1, a0, 1         # the key, and the operation's number
 addi s2, a0, 70        # the value
 slli t1, s1, 8
 add s2, s2, t1         # the entry
 mv s3, a1              # the address of slot 0
 li a7, 2001            # operation s1 begins
 mv a0, s1
 ecall
probe:
 lr.d t0, (s3)
 bnez t0, next          # the slot is taken
 sc.d t1, s2, (s3)      # the insert commits by this store
 bnez t1, probe         # another hart has stored to the slot since the LR: look again
 cbo.clean (s3)
 fence w, w             # now the entry is durable
 li a7, 2002            # operation s1 ends
 ecall
 li a7, 93
 li a0, 0
 ecall
next:
 addi s3, s3, 64
 j probe
