li a7, 2001
li a0, 1
ecall
li t0, 17
addi t1, a1, 64
loop: sd t0, 0(t1)
addi t1, t1, 64
addi t0, t0, -1
bnez t0, loop
sd a7, 0(a1)
ebreak
