# A hash table with linear probing and without a lock: each hart inserts one key by LR and SC. Hart h inserts the key h + 1 with
# the value 70 + h, as operation h + 1.
#
# In persistent memory slot i stands at 64 * i from its base (a1), a cache line each. An entry is one doubleword,
# 256 * key + value, and 0 where the slot is free. It is stored as a whole, so that no part of it can be on the medium alone.
# All keys here hash to slot 0. A search probes slot by slot up to a free one, and so does an insert.
#
# Two things have to be durable when the operation ends:
#     the entries that it has probed past: where such a slot is free after a power cut, a search ends there, and doesn't find
#     what was inserted behind it. The hart that stored one may not have made it durable yet.
#     its own entry
 addi s1, a0, 1         # the key, and the operation's number
 addi s2, a0, 70        # the value
 slli t1, s1, 8
 add s2, s2, t1         # the entry
 mv s3, a1              # the address of slot 0
 li a7, 2001            # operation s1 begins
 mv a0, s1
 ecall
probe:
 lr.d t0, (s3)
 bnez t0, next          # the slot is taken
 sc.d t1, s2, (s3)      # the insert commits by this store
 bnez t1, probe         # another hart has stored to the slot since the LR: look again
 cbo.clean (s3)
 fence w, w             # now the entry is durable
 li a7, 2002            # operation s1 ends
 ecall
 li a7, 93
 li a0, 0
 ecall
next:
 cbo.clean (s3)
 fence w, w             # now the entry that is probed past is durable
 addi s3, s3, 64
 j probe
