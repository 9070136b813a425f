lui t0, 5
sd t0, 72(a1)
addi t1, a1, 64
lui t2, 4
addi t3, t0, -64
add t3, t3, a1
sd t2, 0(t3)
cbo.clean (t1)
cbo.clean (t3)
fence w, w
li a7, 93
ecall
