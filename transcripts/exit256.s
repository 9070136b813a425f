li a0, 256
li a7, 93
li a2, 0
ecall
