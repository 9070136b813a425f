lui a1, 512
li a2, 1
li a7, 93
li a0, 0
ecall
