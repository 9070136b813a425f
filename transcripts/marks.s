li a7, 2001
li a0, 3
ecall
li a0, 2
ecall
li a7, 93
li a0, 0
ecall
