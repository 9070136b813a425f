bnez a0, other
lr.d t0, (a1)
li t1, 5
sc.d t2, t1, (a1)
sc.d t3, t1, (a1)
li a7, 93
li a0, 0
ecall
other: sd a0, 64(a1)
li a7, 93
li a0, 0
ecall
