# The hash table's recovery: frees all locks, and answers the key and the value of each slot that is taken, bucket by bucket.
# It holds a bucket's lock while it looks at it, as any reader may.
 lui s0, 256            # the answer begins at 0x100000, in data memory
 mv s1, s0              # and ends here so far
 addi s2, a1, 1024      # where the buckets end
 mv t0, a1
free:
 addi t0, t0, 64
 bne t0, s2, free
bucket:
 li t1, 1
take:
 amoswap.d.aq t2, t1, (a1)
 bnez t2, take
 mv t0, a1
 li t3, 3               # how many slots are left
slot:
 addi t0, t0, 8
 ld t1, 0(t0)           # a slot's key
 beqz t1, next
 ld t2, 24(t0)          # and its value
 sd t1, 0(s1)
 sd t2, 8(s1)
 addi s1, s1, 16
next:
 addi t3, t3, -1
 bnez t3, slot
 sd x0, 0(a1)
 addi a1, a1, 64
 bne a1, s2, bucket
 mv a1, s0
 sub a2, s1, s0
 li a7, 93
 li a0, 0
 ecall
