# Appends value 77 to inode 0's log as operation 1, on a volume of the second layout at 0x40000000 (a1).
# The entry has no name, so that recovery reads its first line alone: that one is made durable before the tail moves past both.
 li a7, 2001            # operation 1 begins
 li a0, 1
 ecall
 ld t0, 72(a1)          # inode 0's tail
 add t1, a1, t0
 li t2, 1
 sd t2, 0(t1)           # kind 1, without a name
 sd t2, 8(t1)           # operation 1
 li t3, 77
 sd t3, 16(t1)          # the value
 cbo.clean (t1)
 fence w, w
 addi t0, t0, 128       # an entry of the second layout has two lines
 sd t0, 72(a1)          # the append commits by this store
 addi t4, a1, 64
 cbo.clean (t4)
 fence w, w
 li a7, 2002            # operation 1 ends
 ecall
 li a7, 93
 li a0, 0
 ecall
