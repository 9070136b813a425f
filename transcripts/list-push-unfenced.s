addi t0, a0, 1
slli t1, t0, 6
add t2, t1, a1
li a7, 2001
mv a0, t0
ecall
sd t0, 0(t2)
again: ld t3, 0(a1)
sd t3, 8(t2)
cbo.clean (t2)
lr.d t4, (a1)
bne t4, t3, again
sc.d t5, t1, (a1)
bnez t5, again
cbo.clean (a1)
fence w, w
li a7, 2002
ecall
li a7, 93
li a0, 0
ecall
