lui a1, 512
addi a1, a1, -1
li a2, 1
li a7, 93
li a0, 0
ecall
