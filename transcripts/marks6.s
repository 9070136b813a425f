bnez a0, other
li a7, 2002
li a0, 1
ecall
ebreak
other:
ebreak
