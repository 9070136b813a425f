# A linked list that two harts push to under a lock: hart h pushes two nodes, as operations 2h + 1 and 2h + 2.
#
# In persistent memory, by bytes from its base (a1), a cache line each:
#     0            the head: where the newest node begins, 0 where there is none
#     64 to 319    the node of each operation: its value, 70 + its number, and behind it where the next node begins
# The lock stands in data memory: it needs no recovery, since a power cut loses it. An operation begins and ends while its
# hart holds the lock, so that no two are under way at once.
 la s0, lock
 slli s1, a0, 1
 addi s1, s1, 1         # the operation's number
 addi s2, s1, 2         # and the first that this hart doesn't make
push:
 li t0, 1
take:
 amoswap.w.aq t1, t0, (s0)
 bnez t1, take          # another hart holds the lock
 li a7, 2001            # operation s1 begins
 mv a0, s1
 ecall
 slli t0, s1, 6         # where the new node begins
 add t1, a1, t0         # and its address
 addi t2, s1, 70
 ld t3, 0(a1)           # where the newest node so far begins
 sd t2, 0(t1)           # the new node's value
 sd t3, 8(t1)           # and the next node
 cbo.clean (t1)         # the new node's line
 fence w, w             # now the new node is durable
 sd t0, 0(a1)           # the push commits by this store
 cbo.clean (a1)         # the head's line
 fence w, w             # now the push is durable, and may be acknowledged
 li a7, 2002            # operation s1 ends
 ecall
 fence rw, w            # the lock's release
 sw x0, 0(s0)
 addi s1, s1, 1
 bne s1, s2, push
 li a7, 93
 li a0, 0
 ecall

 .data
lock: .word 0
