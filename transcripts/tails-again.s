li t0, 17
addi t1, a1, 72
loop: ld t2, 0(t1)
sd t2, 0(t1)
addi t1, t1, 64
addi t0, t0, -1
bnez t0, loop
li a7, 93
ecall
