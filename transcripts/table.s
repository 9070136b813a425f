# A hash table of 16 buckets in the manner of P-CLHT: a bucket is one cache line, and has a lock that nobody cleans.
#
# In persistent memory, bucket b is the cache line at 64 b from its base (a1):
#     0            the lock: 1 while an operation holds it
#     8, 16, 24    the keys of three slots, 0 where a slot is free
#     32, 40, 48   and their values
# A put writes its value before its key, into one line: of a line an older store is on the medium whenever a newer one is. So
# the key commits, and one clean and one fence make all of it durable. The lock means nothing after a power cut.
#
# Operation n puts the value 100 + n under the key n, for n from 1 to 20.
 li s0, 1               # the operation's number
 li s1, 21              # and the first that isn't made
put:
 li a7, 2001            # operation s0 begins
 mv a0, s0
 ecall
 andi t0, s0, 15        # the key's bucket
 slli t0, t0, 6
 add t0, a1, t0         # and its address
 li t1, 1
take:
 amoswap.d.aq t2, t1, (t0)
 bnez t2, take          # somebody else holds the lock
 mv t3, t0
find:
 addi t3, t3, 8
 ld t2, 0(t3)           # a slot's key
 bnez t2, find
 addi t2, s0, 100
 sd t2, 24(t3)          # the slot's value
 sd s0, 0(t3)           # the put commits by this store of its key
 cbo.clean (t0)         # the bucket's line
 fence w, w             # now the put is durable, and may be acknowledged
 sd x0, 0(t0)           # the lock is free; this store is never cleaned
 li a7, 2002            # operation s0 ends
 ecall
 addi s0, s0, 1
 bne s0, s1, put
 li a7, 93
 li a0, 0
 ecall
