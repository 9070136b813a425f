li t0, 17
li t1, 19200
add t1, t1, a1
loop: sd t0, 0(t1)
addi t1, t1, 64
addi t0, t0, -1
bnez t0, loop
li a7, 93
ecall
