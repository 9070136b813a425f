# memcpy and memset by eight bytes a store where their target is at a multiple of eight, so that a copy of a cache line to the medium
# is 8 events and not 64. They take the place of a C library's.
    .section .text.memcpy, "ax"
    .globl memcpy
    .type memcpy, @function
memcpy:                         # a0 target, a1 source, a2 bytes; returns the target
    mv t0, a0
1:  andi t1, t0, 7
    beqz t1, 2f                 # the target is at a multiple of eight
    beqz a2, 6f
    lbu t2, 0(a1)
    sb t2, 0(t0)
    addi a1, a1, 1
    addi t0, t0, 1
    addi a2, a2, -1
    j 1b
2:  li t3, 8
3:  bltu a2, t3, 5f
    andi t1, a1, 7
    bnez t1, 4f
    ld t2, 0(a1)
    j 8f
4:  li t2, 0                    # the source isn't: its bytes are gathered, the last one first
    li t4, 7
7:  add t5, a1, t4
    lbu t6, 0(t5)
    slli t2, t2, 8
    or t2, t2, t6
    addi t4, t4, -1
    bgez t4, 7b
8:  sd t2, 0(t0)
    addi a1, a1, 8
    addi t0, t0, 8
    addi a2, a2, -8
    j 3b
5:  beqz a2, 6f                 # fewer than eight bytes are left
    lbu t2, 0(a1)
    sb t2, 0(t0)
    addi a1, a1, 1
    addi t0, t0, 1
    addi a2, a2, -1
    j 5b
6:  ret
    .size memcpy, . - memcpy

    .section .text.memset, "ax"
    .globl memset
    .type memset, @function
memset:                         # a0 target, a1 byte, a2 bytes; returns the target
    mv t0, a0
    andi a1, a1, 255
    slli t1, a1, 8
    or a1, a1, t1
    slli t1, a1, 16
    or a1, a1, t1
    slli t1, a1, 32
    or a1, a1, t1
1:  andi t1, t0, 7
    beqz t1, 2f
    beqz a2, 4f
    sb a1, 0(t0)
    addi t0, t0, 1
    addi a2, a2, -1
    j 1b
2:  li t3, 8
3:  bltu a2, t3, 5f
    sd a1, 0(t0)
    addi t0, t0, 8
    addi a2, a2, -8
    j 3b
5:  beqz a2, 4f
    sb a1, 0(t0)
    addi t0, t0, 1
    addi a2, a2, -1
    j 5b
4:  ret
    .size memset, . - memset
