addi t0, a0, 1
addi t1, a0, 70
slli t2, t0, 6
add t3, a1, t2
li a7, 2001
mv a0, t0
ecall
sd t1, 0(t3)
again:
ld t4, 0(a1)
sd t4, 8(t3)
cbo.clean (t3)
lr.d t5, (a1)
bne t5, t4, again
sc.d t6, t2, (a1)
bnez t6, again
cbo.clean (a1)
fence w, w
li a7, 2002
ecall
li a7, 93
li a0, 0
ecall
