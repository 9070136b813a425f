lui t0, 5
sd t0, 72(a1)
addi t1, a1, 64
cbo.clean (t1)
fence w, w
li a7, 93
ecall
