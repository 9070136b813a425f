li a7, 2001
li a0, 1
ecall
li t0, 7
sd t0, 0(a1)
cbo.inval (a1)
fence w, r
li a7, 2002
ecall
li a7, 93
li a0, 0
ecall
