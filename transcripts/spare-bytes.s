# Stores to a spare byte of each of seventeen inodes: recovery reads these lines, and finds the same in each image.
 li t0, 17
 mv t1, a1
next:
 addi t1, t1, 64        # the inode's cache line
 sb t0, 16(t1)
 addi t0, t0, -1
 bnez t0, next
 li a7, 93
 li a0, 0
 ecall
