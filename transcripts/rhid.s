ld t0, 0(a1)
li a7, 93
li a0, 3
bnez t0, .+12
li a2, 0
li a0, 0
ecall
