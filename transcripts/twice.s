li a7, 2001
li a0, 7
ecall
li a7, 2002
ecall
li a7, 2001
ecall
