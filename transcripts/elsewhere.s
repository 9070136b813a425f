lr.d t0, (a1)
addi t4, a1, 64
li t1, 5
sc.d t2, t1, (t4)
sc.d t3, t1, (a1)
li a7, 93
li a0, 0
ecall
