# Renames: takes the name `a`, of value 9, from inode 0's log and adds it to inode 1's, as operation 1. The two
# logs change together by journal 0: until its head is moved, recovery goes back to the old tails.
 li a7, 2001            # operation 1 begins
 li a0, 1
 ecall
 ld t0, 72(a1)          # the tails of inodes 0 and 1
 ld t1, 136(a1)
 add t2, a1, t0
 add t3, a1, t1
 li t4, 1
 li t5, 9
 li t6, 97              # the name `a`
 li a2, 0x103           # kind 3, a name of one byte
 sd a2, 0(t2)
 sd t4, 8(t2)
 sd t5, 16(t2)
 sd t6, 24(t2)
 li a2, 0x102           # kind 2, a name of one byte
 sd a2, 0(t3)
 sd t4, 8(t3)
 sd t5, 16(t3)
 sd t6, 24(t3)
 cbo.clean (t2)
 cbo.clean (t3)
 fence w, w
 lui a3, 2              # journal 0, at byte 8192
 add a3, a3, a1
 addi a4, a3, 64        # records 0 and 1: an inode and its old tail
 addi a5, a3, 128
 sd zero, 0(a4)
 sd t0, 8(a4)
 sd t4, 0(a5)
 sd t1, 8(a5)
 cbo.clean (a4)
 cbo.clean (a5)
 fence w, w
 li a2, 2
 sd a2, 8(a3)           # the records pend from here on
 cbo.clean (a3)
 fence w, w
 addi t0, t0, 64
 addi t1, t1, 64
 sd t0, 72(a1)
 sd t1, 136(a1)
 addi a4, a1, 64
 addi a5, a1, 128
 cbo.clean (a4)
 cbo.clean (a5)
 fence w, w
 sd a2, 0(a3)           # the rename commits by this store
 cbo.clean (a3)
 fence w, w
 li a7, 2002            # operation 1 ends
 ecall
 li a7, 93
 li a0, 0
 ecall
