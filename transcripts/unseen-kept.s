li a7, 2001
li a0, 1
ecall
li t0, 1
sd t0, 640(a1)
sd t0, 640(a1)
sd t0, 0(a1)
cbo.clean (a1)
fence w, w
li a7, 2002
ecall
li a7, 93
li a0, 0
ecall
