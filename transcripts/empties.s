lui t0, 4
sd t0, 72(a1)
addi t1, a1, 64
cbo.clean (t1)
fence w, w
lui t2, 2
add t2, t2, a1
li t3, 2
sd t3, 0(t2)
cbo.clean (t2)
fence w, w
li a7, 93
li a0, 0
ecall
