li t0, 3
again: sd t0, 0(a1)
cbo.clean (a1)
fence w, w
sd t0, 64(a1)
cbo.clean (a1)
addi t1, a1, 64
cbo.clean (t1)
fence w, w
addi t0, t0, -1
bnez t0, again
li a7, 93
li a0, 0
ecall
