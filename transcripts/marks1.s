bnez a0, other
li a7, 2001
li a0, 1
ecall
li a7, 2001
li a0, 1
ecall
ebreak
other:
ebreak
